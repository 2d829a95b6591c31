//! Accepted mappings, by chance.

use crate::build;
use crate::random::Random;
use crate::schemas::{add_attributes, add_equations, graph, is_accepted, woven};
use reference::classes::Classes;
use reference::paths::all_paths;
use reference::plain::*;

/// A mapping with its two schemas.
#[derive(Debug, Clone)]
pub struct Mapped {
    /// The schema S.
    pub s: Schema,
    /// The schema T.
    pub t: Schema,
    /// The mapping of S to T.
    pub f: Mapping,
}

impl Mapped {
    /// The sheets of S, T and the mapping.
    pub fn sheets(&self) -> (Vec<u8>, Vec<u8>, Vec<u8>) {
        (self.s.to_sheet(), self.t.to_sheet(), self.f.to_sheet())
    }

    /// Whether all three sheets are accepted.
    pub fn is_accepted(&self) -> bool {
        let judged = || Mapping::accept(&self.s, &self.t, &self.f.to_sheet());
        is_accepted(&self.s) && is_accepted(&self.t) && judged().as_ref() == Ok(&self.f)
    }
}

/// An accepted mapping, even or not, whose attribute mapping is a bijection
/// unless `loose` attributes are wanted.  One in six is between larger schemas.
pub fn mapping(random: &mut Random, loose: bool) -> Mapped {
    let [plain_s, plain_t] = [random.once_in(2), random.once_in(2)];
    let (nodes, more) = if random.once_in(6) { (9, 9) } else { (5, 3) };
    loop {
        let mut t = if plain_t { graph(random, 4, 5) } else { woven(random, nodes, more) };
        add_equations(random, &mut t, 2, |_, _| true);
        let mut s = if plain_s { graph(random, nodes, 5) } else { woven(random, nodes, more) };
        let nodes: Vec<usize> = (0..s.nodes).map(|_| random.below(t.nodes)).collect();
        let edges = images_of_edges(random, &mut s, &t, &nodes);
        let mut f = Mapping { nodes, edges, attributes: vec![] };
        let classes = Classes::of(&t);
        let image = |p: &Path| classes.first(&f.path_image(p));
        add_equations(random, &mut s, 3, |p, q| image(p) == image(q));
        pair_attributes(random, &mut s, &mut t, &mut f, loose);
        if is_accepted(&t) {
            return Mapped { s, t, f };
        }
    }
}

/// An accepted mapping, even or not, of some schema to this one; of four one may miss nodes.
/// Several attributes may have one image, and some may be the image of none.
pub fn mapping_to(random: &mut Random, t: &Schema) -> Mapped {
    let classes = Classes::of(t);
    loop {
        let once = if random.once_in(4) { 1..1 } else { 0..t.nodes };
        let more = 1 + random.below(4);
        let nodes = once.chain((0..more).map(|_| random.below(t.nodes))).collect();
        let nodes = random.shuffled(nodes);
        let mut s = build::graph(nodes.len(), &[]);
        let mut f = Mapping { nodes, edges: vec![], attributes: vec![] };
        add_edges_over(random, &mut s, t, &mut f);
        let image = |p: &Path| classes.first(&f.path_image(p));
        add_equations(random, &mut s, 3, |p, q| image(p) == image(q));
        for _ in 0..2 + random.below(5) {
            let Some(b) = random.any_in(0..t.attributes.len()) else { break };
            let Attribute { node, kind } = t.attributes[b];
            if let Some(node) = random.any_of(&f.fibre(node)) {
                s.attributes.push(Attribute { node, kind });
                f.attributes.push(b);
            }
        }
        let mapped = Mapped { s, t: t.clone(), f };
        if mapped.is_accepted() {
            return mapped;
        }
    }
}

/// Some edges of S over paths of T by chance, half of them the longer of two.  They lead
/// from nodes over longer ways of T to nodes over shorter ones, so that there is no loop.
fn add_edges_over(random: &mut Random, s: &mut Schema, t: &Schema, f: &mut Mapping) {
    let paths = all_paths(t);
    let lengths = |d: usize| paths.iter().filter(move |q| q.start == d).map(|q| q.edges.len());
    let shuffled = random.shuffled((0..s.nodes).collect());
    let longest = f.nodes.iter().map(|&d| lengths(d).max());
    let rank: Vec<_> = longest.zip(shuffled).collect();
    for _ in 0..4 + random.below(2 * t.nodes + 4) {
        let tried = (0..1 + random.below(2)).map(|_| random.one_of(&paths));
        let q = tried.max_by_key(|q| q.edges.len()).expect("a path");
        let source = random.any_of(&f.fibre(q.start));
        let target = random.any_of(&f.fibre(q.end(t).expect("a path of T")));
        match (source, target) {
            (Some(source), Some(target)) if rank[source] > rank[target] => {
                s.edges.push(Edge { source, target });
                f.edges.push(q.edges.clone());
            }
            _ => {}
        }
    }
}

/// Images of the edges of S, without the edges that can have none.
fn images_of_edges(
    random: &mut Random,
    s: &mut Schema,
    t: &Schema,
    nodes: &[usize],
) -> Vec<Vec<usize>> {
    let paths = all_paths(t);
    let mut images = Vec::new();
    s.edges.retain(|edge| {
        let mut fitting = paths.clone();
        fitting.retain(|q| q.start == nodes[edge.source] && q.end(t) == Some(nodes[edge.target]));
        if !fitting.is_empty() {
            images.push(random.one_of(&fitting).edges.clone());
        }
        !fitting.is_empty()
    });
    images
}

/// Attributes of S, and of T one image for each in random order; loose ones may
/// share an image or be the image of none.
fn pair_attributes(
    random: &mut Random,
    s: &mut Schema,
    t: &mut Schema,
    f: &mut Mapping,
    loose: bool,
) {
    add_attributes(random, s, 3);
    let count = s.attributes.len();
    f.attributes = random.shuffled((0..count).collect());
    let image_of = |b: usize| {
        let a = f.attributes.iter().position(|&image| image == b).expect("a bijection");
        let here = &s.attributes[a];
        Attribute { node: f.nodes[here.node], kind: here.kind }
    };
    t.attributes = (0..count).map(image_of).collect();
    if loose {
        add_attributes(random, t, 1);
        for a in 0..count {
            let wanted = t.attributes[f.attributes[a]];
            let fitting = (0..t.attributes.len()).filter(|&b| t.attributes[b] == wanted);
            f.attributes[a] = *random.one_of(&fitting.collect::<Vec<_>>());
        }
    }
}
