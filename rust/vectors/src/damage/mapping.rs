//! Damage to mapping sheets: 7 in each field, and 8.

use crate::mappings::Mapped;
use crate::random::Random;
use crate::schemas::parallel_pairs;
use reference::classes::Classes;
use reference::paths::all_paths;
use reference::plain::*;

/// A way to damage a mapping sheet.
#[derive(Debug, Clone, Copy, PartialEq, Eq, PartialOrd, Ord)]
pub enum MappingDamage {
    /// A node's image is missing in T.
    NodeMissing,
    /// An edge's image has an edge that is missing in T.
    EdgeMissing,
    /// An edge's image does not join.
    LooseImage,
    /// An edge's image begins elsewhere than at its source's image.
    OtherStart,
    /// An edge's image ends elsewhere than at its target's image.
    OtherEnd,
    /// An attribute's image is missing in T.
    AttributeMissing,
    /// An attribute's image has another kind.
    OtherKind,
    /// An attribute's image sits at another node.
    OtherNode,
    /// S has an equation more, whose images are unequal.
    BrokenRule,
    /// T lacks an equation that an equation of S needs.
    RuleLeftOut,
}

use MappingDamage::*;

impl MappingDamage {
    /// All of them.
    pub const ALL: [MappingDamage; 10] = [
        NodeMissing,
        EdgeMissing,
        LooseImage,
        OtherStart,
        OtherEnd,
        AttributeMissing,
        OtherKind,
        OtherNode,
        BrokenRule,
        RuleLeftOut,
    ];

    /// The number that the sheet is sent back with.
    pub fn number(self) -> u8 {
        match self {
            BrokenRule | RuleLeftOut => 8,
            _ => 7,
        }
    }

    /// The damaged mapping; for a broken rule with other schemas.
    pub fn done_to(
        self,
        random: &mut Random,
        s: &Schema,
        t: &Schema,
        f: &Mapping,
    ) -> Option<Mapped> {
        let mut done = Mapped { s: s.clone(), t: t.clone(), f: f.clone() };
        match self {
            NodeMissing => {
                let image = random.any_in(t.nodes..16)?;
                *any_mut(random, &mut done.f.nodes)? = image;
            }
            EdgeMissing => {
                let edge = random.any_in(t.edges.len()..32)?;
                let image = any_mut(random, &mut done.f.edges)?;
                image.truncate(14);
                image.push(edge);
            }
            AttributeMissing => {
                let image = random.any_in(t.attributes.len()..16)?;
                *any_mut(random, &mut done.f.attributes)? = image;
            }
            LooseImage | OtherStart | OtherEnd => self.other_image(random, &mut done)?,
            OtherKind | OtherNode => self.other_attribute(random, &mut done)?,
            BrokenRule => done.s.equations.push(broken_rule(random, s, t, f)?),
            RuleLeftOut => {
                done.t.equations.clear();
                let classes = Classes::of(&done.t);
                let image = |p: &Path| classes.first(&f.path_image(p));
                let holds = |rule: &Equation| image(&rule.left) == image(&rule.right);
                return (!s.equations.iter().all(holds)).then_some(done);
            }
        }
        (done.s.equations.len() <= Schema::MOST_EQUATIONS).then_some(done)
    }

    /// Another image for an edge of S, that does not fit.
    fn other_image(self, random: &mut Random, done: &mut Mapped) -> Option<()> {
        let Mapped { s, t, f } = done;
        let edge = random.any_in(0..s.edges.len())?;
        let [start, end] = [s.edges[edge].source, s.edges[edge].target].map(|c| f.nodes[c]);
        let images: Vec<Vec<usize>> = match self {
            LooseImage => {
                let all = 0..t.edges.len();
                let pairs = all.clone().flat_map(|one| all.clone().map(move |other| (one, other)));
                let loose = |&(one, other): &(usize, usize)| {
                    t.edges[one].source == start && t.edges[one].target != t.edges[other].source
                };
                pairs.filter(loose).map(|(one, other)| vec![one, other]).collect()
            }
            OtherStart => {
                let begins_elsewhere = |q: &Path| q.start != start && !q.edges.is_empty();
                all_paths(t).into_iter().filter(begins_elsewhere).map(|q| q.edges).collect()
            }
            _ => {
                let ends_elsewhere = |q: &Path| q.start == start && q.end(t) != Some(end);
                all_paths(t).into_iter().filter(ends_elsewhere).map(|q| q.edges).collect()
            }
        };
        f.edges[edge] = random.any_of(&images)?;
        Some(())
    }

    /// Another image for an attribute of S, that does not fit.
    fn other_attribute(self, random: &mut Random, done: &mut Mapped) -> Option<()> {
        let Mapped { s, t, f } = done;
        let a = random.any_in(0..s.attributes.len())?;
        let here = s.attributes[a];
        let fits = |b: &usize| {
            let there = t.attributes[*b];
            let (kind, node) = (there.kind == here.kind, there.node == f.nodes[here.node]);
            match self {
                OtherKind => !kind && node,
                _ => kind && !node,
            }
        };
        let images: Vec<usize> = (0..t.attributes.len()).filter(fits).collect();
        f.attributes[a] = random.any_of(&images)?;
        Some(())
    }
}

/// An equation of S whose images are unequal.
fn broken_rule(random: &mut Random, s: &Schema, t: &Schema, f: &Mapping) -> Option<Equation> {
    let classes = Classes::of(t);
    let image = |p: &Path| classes.first(&f.path_image(p));
    let mut pairs = parallel_pairs(s);
    pairs.retain(|(p, q)| image(p) != image(q));
    let (left, right) = random.any_of(&pairs)?;
    Some(Equation { left, right })
}

/// One of a list.
fn any_mut<'a, T>(random: &mut Random, list: &'a mut [T]) -> Option<&'a mut T> {
    let place = random.any_in(0..list.len())?;
    list.get_mut(place)
}
