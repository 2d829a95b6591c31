//! Cases that are hard for Pi: colourings of graphs.
//!
//! S has a table of colours for each vertex, and for each pair of vertices a
//! table of the pairs of colours that they may have, with a link to each.  All
//! lie over one node of T, to which several edges lead from another: a row
//! there is a colouring for each of the edges.

use crate::build;
use crate::call::{Call, Case};
use crate::random::Random;
use reference::plain::*;

/// Two vertices and the pairs of colours that they may have.
type Pair = (usize, usize, Vec<(usize, usize)>);

/// The colourings of a graph, `copies` of them at once.  `table` has the number
/// of the table of each vertex, then of each pair.
fn colourings(
    vertices: usize,
    colours: usize,
    pairs: &[Pair],
    copies: usize,
    table: &[usize],
) -> Case {
    let nodes = vertices + pairs.len();
    let (mut rows, mut edges, mut links) = (vec![colours; nodes], Vec::new(), Vec::new());
    for (number, (one, other, allowed)) in pairs.iter().enumerate() {
        let pair = table[vertices + number];
        rows[pair] = allowed.len();
        edges.push((pair, table[*one]));
        links.push(allowed.iter().map(|colours| colours.0).collect());
        edges.push((pair, table[*other]));
        links.push(allowed.iter().map(|colours| colours.1).collect());
    }
    let (s, t) = (build::graph(nodes, &edges), build::graph(2, &vec![(0, 1); copies]));
    let f = Mapping { nodes: vec![1; nodes], edges: vec![vec![]; edges.len()], attributes: vec![] };
    let run = Instance { rows, links, values: vec![] };
    let sheets = vec![s.to_sheet(), t.to_sheet(), f.to_sheet(), run.to_sheet()];
    Case::new("colourings", Call::Pi, sheets).with_tray(600)
}

/// A graph at random, with random pairs of colours, at most 64 components.
pub fn any_colourings(random: &mut Random) -> Case {
    let (vertices, colours) = (3 + random.below(6), 2 + random.below(3));
    let count = 1 + random.below(12 - vertices);
    let pair = |random: &mut Random| {
        let all = (0..colours).flat_map(|one| (0..colours).map(move |other| (one, other)));
        let mut allowed = random.shuffled(all.collect::<Vec<_>>());
        allowed.truncate(1 + random.below(colours * colours));
        (random.below(vertices), random.below(vertices), allowed)
    };
    let pairs: Vec<Pair> = (0..count).map(|_| pair(random)).collect();
    let table = random.shuffled((0..vertices + count).collect());
    let copies = 1 + random.below((64 / (vertices + count)).min(4));
    colourings(vertices, colours, &pairs, copies, &table)
}

/// Colourings of the complete graph, the tables of the vertices first.
pub fn complete_graph(vertices: usize, colours: usize, copies: usize) -> Case {
    let all = (0..colours).flat_map(|one| (0..colours).map(move |other| (one, other)));
    let unequal: Vec<(usize, usize)> = all.filter(|(one, other)| one != other).collect();
    let both = (0..vertices).flat_map(|one| (one + 1..vertices).map(move |other| (one, other)));
    let pairs: Vec<Pair> = both.map(|(one, other)| (one, other, unequal.clone())).collect();
    let table: Vec<usize> = (0..vertices + pairs.len()).collect();
    colourings(vertices, colours, &pairs, copies, &table)
}
