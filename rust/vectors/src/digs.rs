//! What a query is lent, fitting together: four schemas, mappings F, G and H between
//! them, and a run over the first.
//!
//! H is an even mapping, or uneven for one reason.  The second schema is made between
//! the first and the third: each of its nodes is a node of the one with a node of the
//! other, each of its edges a path of the one with a path of the other, and its
//! equations are those that hold in both.  A column is made from the fourth schema
//! back, so that H is even and G pairs columns.

use crate::call::{Call, Case};
use crate::even::{even_mapping, uneven_mapping, Unevenness};
use crate::instances::instance;
use crate::mappings::Mapped;
use crate::random::Random;
use crate::schemas::{add_attributes, add_equations, graph, is_accepted, kind, woven};
use crate::world::Sheet;
use reference::classes::Classes;
use reference::paths::all_paths;
use reference::plain::*;

/// The sheets of a query.
#[derive(Debug, Clone)]
pub struct Dig {
    /// The four schemas.
    pub schemas: [Schema; 4],
    /// F, from the second schema to the first.
    pub f: Mapping,
    /// G, from the second schema to the third.
    pub g: Mapping,
    /// H, from the third schema to the fourth.
    pub h: Mapping,
    /// An instance of the first schema.
    pub run: Instance,
}

impl Dig {
    /// The sheets, by place.
    pub fn lent(&self) -> Vec<Sheet> {
        let schemas = self.schemas.iter().cloned().map(Sheet::Schema);
        let mappings = [&self.f, &self.g, &self.h].map(|mapping| Sheet::Mapping(mapping.clone()));
        schemas.chain(mappings).chain([Sheet::Instance(self.run.clone())]).collect()
    }

    /// The sheets' bytes, by place.
    pub fn sheets(&self) -> Vec<Vec<u8>> {
        self.lent().iter().map(Sheet::bytes).collect()
    }

    /// The query, with a tray that holds every result.
    pub fn case(&self, name: impl Into<String>) -> Case {
        Case::new(name, Call::Query, self.sheets()).with_tray(Case::MOST_RESULT)
    }

    /// F, G and H, each with its schemas.
    pub fn mapped(&self) -> [Mapped; 3] {
        let [s1, s2, s3, s4] = &self.schemas;
        [(s2, s1, &self.f), (s2, s3, &self.g), (s3, s4, &self.h)].map(|(s, t, f)| Mapped {
            s: s.clone(),
            t: t.clone(),
            f: f.clone(),
        })
    }

    /// Whether the sheets of the schemas and mappings are accepted.
    pub fn is_accepted(&self) -> bool {
        self.mapped().iter().all(Mapped::is_accepted)
    }
}

/// A dig by chance, with an even H, and some `generators` rows that no equation
/// speaks of in its run.
pub fn any_dig(random: &mut Random, generators: usize) -> Dig {
    let h = if random.once_in(4) { same(random) } else { even_mapping(random) };
    over(random, h, generators)
}

/// A dig by chance as any call may lend it: of eight one has an uneven H, and one a G
/// that pairs no columns.
pub fn any_lent_dig(random: &mut Random, generators: usize) -> Dig {
    match random.below(8) {
        0 => {
            let reason = *random.one_of(&Unevenness::ALL);
            uneven_dig(random, reason, generators)
        }
        1 => {
            let column = random.once_in(2);
            unpaired_dig(random, column, generators)
        }
        _ => any_dig(random, generators),
    }
}

/// A dig by chance that is accepted, with links and values in its result.
pub fn fruitful_dig(random: &mut Random, generators: usize) -> Dig {
    loop {
        let dig = any_dig(random, generators);
        let [s1, s2, s3, s4, f, g, h, run] = &dig.sheets()[..] else { unreachable!("a query") };
        let Ok(result) = reference::query(s1, s2, s3, s4, f, g, h, run) else { continue };
        let result = Instance::accept(&dig.schemas[3], &result).expect("an instance");
        let links = result.links.iter().any(|targets| !targets.is_empty());
        if links && result.values.iter().any(|column| !column.is_empty()) {
            return dig;
        }
    }
}

/// A dig by chance whose H is uneven for one reason.
pub fn uneven_dig(random: &mut Random, reason: Unevenness, generators: usize) -> Dig {
    match reason {
        Unevenness::ColumnWithoutLift | Unevenness::ColumnWithTwoLifts => loop {
            let mut dig = any_dig(random, generators);
            let c = random.below(dig.schemas[2].nodes);
            let changed = match reason {
                Unevenness::ColumnWithoutLift => {
                    let column = Attribute { node: dig.h.nodes[c], kind: kind(random) };
                    dig.schemas[3].attributes.push(column);
                    true
                }
                _ => doubled_column(random, &mut dig).is_some(),
            };
            if changed && dig.is_accepted() {
                return dig;
            }
        },
        _ => {
            let h = uneven_mapping(random, reason);
            over(random, h, generators)
        }
    }
}

/// Puts a column of the third schema there twice, over one column of the fourth, and
/// its column of the second.
fn doubled_column(random: &mut Random, dig: &mut Dig) -> Option<()> {
    let a = random.any_in(0..dig.g.attributes.len())?;
    let over = dig.g.attributes[a];
    let [_, s2, s3, _] = &mut dig.schemas;
    s3.attributes.push(s3.attributes[over]);
    dig.h.attributes.push(dig.h.attributes[over]);
    s2.attributes.push(s2.attributes[a]);
    dig.f.attributes.push(dig.f.attributes[a]);
    dig.g.attributes.push(s3.attributes.len() - 1);
    Some(())
}

/// A dig whose G pairs no columns: the third schema has one more, with H even; or two of
/// the second lie over one.
pub fn unpaired_dig(random: &mut Random, column: bool, generators: usize) -> Dig {
    loop {
        let mut dig = any_dig(random, generators);
        let Dig { schemas: [_, s2, s3, s4], f, g, h, .. } = &mut dig;
        if column {
            let (node, kind) = (h.nodes[random.below(s3.nodes)], kind(random));
            s4.attributes.push(Attribute { node, kind });
            for c in h.fibre(node) {
                s3.attributes.push(Attribute { node: c, kind });
                h.attributes.push(s4.attributes.len() - 1);
            }
        } else {
            let Some(a) = random.any_in(0..s2.attributes.len()) else { continue };
            s2.attributes.push(s2.attributes[a]);
            f.attributes.push(f.attributes[a]);
            g.attributes.push(g.attributes[a]);
        }
        if dig.is_accepted() {
            return dig;
        }
    }
}

/// A schema and the mapping of it to itself that changes nothing.
fn same(random: &mut Random) -> Mapped {
    let mut s = woven(random, 4, 3);
    add_equations(random, &mut s, 2, |_, _| true);
    Mapped { f: crate::build::identity(&s), t: s.clone(), s }
}

/// A dig with this H, but for its columns.
fn over(random: &mut Random, mut h: Mapped, generators: usize) -> Dig {
    h.s.attributes.clear();
    h.t.attributes.clear();
    h.f.attributes.clear();
    loop {
        let plain = random.once_in(2);
        let mut s1 = if plain { graph(random, 4, 4) } else { woven(random, 4, 2) };
        add_equations(random, &mut s1, 2, |_, _| true);
        add_attributes(random, &mut s1, 1);
        let (s2, f, g) = between(random, &s1, &h.s);
        let run = instance(random, &s1, 0);
        let schemas = [s1, s2, h.s.clone(), h.t.clone()];
        let mut dig = Dig { schemas, f, g, h: h.f.clone(), run };
        for _ in 0..random.below(5) {
            add_column(random, &mut dig);
        }
        shuffle_columns(random, &mut dig);
        if dig.is_accepted() {
            dig.run = instance(random, &dig.schemas[0], generators);
            return dig;
        }
    }
}

/// A schema without columns, and its mappings to two others.
fn between(random: &mut Random, s1: &Schema, s3: &Schema) -> (Schema, Mapping, Mapping) {
    loop {
        let nodes = 1 + random.below(5);
        let mut s2 = Schema { nodes, edges: vec![], attributes: vec![], equations: vec![] };
        let mut to = |t: &Schema| Mapping {
            nodes: (0..nodes).map(|_| random.below(t.nodes)).collect(),
            edges: vec![],
            attributes: vec![],
        };
        let (mut f, mut g) = (to(s1), to(s3));
        let rank = random.shuffled((0..nodes).collect());
        for _ in 0..random.below(9) {
            let (a, b) = (random.below(nodes), random.below(nodes));
            let (source, target) = if rank[a] > rank[b] { (a, b) } else { (b, a) };
            let images = [(s1, &f), (s3, &g)].map(|(t, f)| image(random, t, f, source, target));
            if let ([Some(p), Some(q)], true) = (images, a != b) {
                s2.edges.push(Edge { source, target });
                f.edges.push(p);
                g.edges.push(q);
            }
        }
        if is_accepted(&s2) {
            let classes = (Classes::of(s1), Classes::of(s3));
            let firsts =
                |p: &Path| (classes.0.first(&f.path_image(p)), classes.1.first(&g.path_image(p)));
            add_equations(random, &mut s2, 3, |p, q| firsts(p) == firsts(q));
            return (s2, f, g);
        }
    }
}

/// The edges of some path of T between the images of two nodes, if there is one: the
/// longer of two.
fn image(
    random: &mut Random,
    t: &Schema,
    f: &Mapping,
    source: usize,
    target: usize,
) -> Option<Vec<usize>> {
    let mut paths = all_paths(t);
    paths.retain(|q| q.start == f.nodes[source] && q.end(t) == Some(f.nodes[target]));
    let two = [random.any_of(&paths)?, random.any_of(&paths)?];
    two.into_iter().map(|path| path.edges).max_by_key(Vec::len)
}

/// Adds a column of the fourth schema, one of the third at each node over its node, one
/// of the second over each of these, and in the first what these copy, which may be
/// there already; nothing where no node of the second lies over one of the third.
fn add_column(random: &mut Random, dig: &mut Dig) -> Option<()> {
    let Dig { schemas: [s1, s2, s3, s4], f, g, h, .. } = dig;
    let (node, kind) = (random.below(s4.nodes), kind(random));
    let fibre = h.fibre(node);
    let over = fibre.iter().map(|&c| random.any_of(&g.fibre(c)));
    let over: Vec<usize> = over.collect::<Option<_>>()?;
    s4.attributes.push(Attribute { node, kind });
    for (c, b) in fibre.into_iter().zip(over) {
        s3.attributes.push(Attribute { node: c, kind });
        h.attributes.push(s4.attributes.len() - 1);
        s2.attributes.push(Attribute { node: b, kind });
        g.attributes.push(s3.attributes.len() - 1);
        let copied = Attribute { node: f.nodes[b], kind };
        let there = s1.attributes.iter().position(|&column| column == copied);
        f.attributes.push(there.unwrap_or(s1.attributes.len()));
        if there.is_none() {
            s1.attributes.push(copied);
        }
    }
    Some(())
}

/// Puts the columns of the second schema in another order.
fn shuffle_columns(random: &mut Random, dig: &mut Dig) {
    let Dig { schemas: [_, s2, ..], f, g, .. } = dig;
    let order = random.shuffled((0..s2.attributes.len()).collect());
    let before = (s2.attributes.clone(), f.attributes.clone(), g.attributes.clone());
    for (place, &old) in order.iter().enumerate() {
        s2.attributes[place] = before.0[old];
        f.attributes[place] = before.1[old];
        g.attributes[place] = before.2[old];
    }
}
