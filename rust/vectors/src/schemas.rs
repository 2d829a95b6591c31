//! Accepted schemas, by chance.

use crate::random::Random;
use reference::paths::all_paths;
use reference::plain::*;
use std::cmp::Ordering;

/// An accepted graph: edges lead from higher to lower ranks of a random order.
pub fn graph(random: &mut Random, most_nodes: usize, most_edges: usize) -> Schema {
    loop {
        let nodes = 1 + random.below(most_nodes);
        let rank = random.shuffled((0..nodes).collect());
        let attempts =
            (0..random.below(most_edges + 1)).map(|_| (random.below(nodes), random.below(nodes)));
        let descend = |(a, b): (usize, usize)| match rank[a].cmp(&rank[b]) {
            Ordering::Greater => Some(Edge { source: a, target: b }),
            Ordering::Less => Some(Edge { source: b, target: a }),
            Ordering::Equal => None,
        };
        let edges = attempts.filter_map(descend).collect();
        let schema = Schema { nodes, edges, attributes: vec![], equations: vec![] };
        if is_accepted(&schema) {
            return schema;
        }
    }
}

/// An accepted graph with long and parallel paths: each node in turn leads to
/// the one before it or to another before that, and some edges are added.
pub fn woven(random: &mut Random, most_nodes: usize, more_edges: usize) -> Schema {
    loop {
        let nodes = 2 + random.below(most_nodes - 1);
        let name = random.shuffled((0..nodes).collect());
        let before = |random: &mut Random, n: usize| match random.below(3) {
            0 => random.below(n),
            _ => n - 1,
        };
        let mut edges: Vec<(usize, usize)> = (1..nodes).map(|n| (n, before(random, n))).collect();
        for _ in 0..random.below(more_edges + 1) {
            let n = 1 + random.below(nodes - 1);
            edges.push((n, before(random, n)));
        }
        let edge = |(from, to): (usize, usize)| Edge { source: name[from], target: name[to] };
        let edges = random.shuffled(edges).into_iter().map(edge).collect();
        let schema = Schema { nodes, edges, attributes: vec![], equations: vec![] };
        if is_accepted(&schema) {
            return schema;
        }
    }
}

/// Whether the schema's sheet is accepted.
pub fn is_accepted(schema: &Schema) -> bool {
    Schema::accept(&schema.to_sheet()).as_ref() == Ok(schema)
}

/// A kind; one in four, and one in 16 of the others, is the clock, the only one whose
/// smallest value is not 0.
pub fn kind(random: &mut Random) -> usize {
    if random.once_in(4) {
        2
    } else {
        random.below(16)
    }
}

/// Some attributes at random nodes.
pub fn add_attributes(random: &mut Random, schema: &mut Schema, most: usize) {
    for _ in 0..random.below(most + 1) {
        let (node, kind) = (random.below(schema.nodes), kind(random));
        schema.attributes.push(Attribute { node, kind });
    }
}

/// All pairs of different paths with one start and one end.
pub fn parallel_pairs(schema: &Schema) -> Vec<(Path, Path)> {
    let paths = all_paths(schema);
    let mut pairs = Vec::new();
    for (number, p) in paths.iter().enumerate() {
        for q in &paths[..number] {
            if p.start == q.start && p.end(schema) == q.end(schema) {
                pairs.push((p.clone(), q.clone()));
            }
        }
    }
    pairs
}

/// Some equations between paths that `are_equal` allows.
pub fn add_equations(
    random: &mut Random,
    schema: &mut Schema,
    most: usize,
    are_equal: impl Fn(&Path, &Path) -> bool,
) {
    let mut pairs = parallel_pairs(schema);
    pairs.retain(|(p, q)| are_equal(p, q));
    if pairs.is_empty() {
        return;
    }
    for _ in 0..random.below(most + 1) {
        let (left, right) = random.one_of(&pairs).clone();
        schema.equations.push(Equation { left, right });
    }
}
