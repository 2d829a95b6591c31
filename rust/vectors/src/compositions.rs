//! The composing call on the base example and at its limits.

use crate::answer::result_length;
use crate::base::{base_f, base_s, base_t};
use crate::build::*;
use crate::call::Case;
use crate::composable::Composable;
use crate::full::{half_schema, two_copies};
use reference::plain::*;

/// All of them.
pub fn compositions() -> Vec<Case> {
    let mut cases = vec![base_composable().case("the base example")];
    cases.extend(units());
    cases.extend(short_images());
    cases.extend(long_images());
    cases.extend(full_sheets());
    cases.extend(many_paths());
    cases.extend(equal_paths());
    cases.extend(kept_equations());
    cases.extend(columns());
    cases.extend(place_by_place());
    cases.extend(trays());
    cases
}

/// Two mappings with their schemas.
fn composable(schemas: [&Schema; 3], f: Mapping, g: Mapping) -> Composable {
    Composable { schemas: schemas.map(Schema::clone).to_vec(), mappings: vec![f, g] }
}

/// The base example's mapping, and on from anomalies and joints to a schema with welds
/// between the two, and with a depth before the station.
pub fn base_composable() -> Composable {
    let s = Schema::accept(&base_s()).expect("the base example");
    let t = Schema::accept(&base_t()).expect("the base example");
    let f = Mapping::accept(&s, &t, &base_f()).expect("the base example");
    let mut u = graph(3, &[(0, 1), (1, 2)]);
    u.attributes = [3, 1].map(|kind| Attribute { node: 0, kind }).to_vec();
    let g = Mapping { attributes: vec![1], ..mapping(&[0, 2], &[&[0, 1]]) };
    composable([&s, &t, &u], f, g)
}

/// Each mapping of the base example between identities.
fn units() -> Vec<Case> {
    let mut cases = Vec::new();
    for (name, mapped) in ["F", "G"].into_iter().zip(base_composable().mapped()) {
        let (s, t) = (&mapped.s, &mapped.t);
        let before = composable([s, s, t], identity(s), mapped.f.clone());
        let after = composable([s, t, t], mapped.f.clone(), identity(t));
        cases.push(before.case(format!("{name} after an identity")));
        cases.push(after.case(format!("{name} before an identity")));
    }
    cases
}

/// Nodes in a row, with an edge from each to the next.
pub fn row(nodes: usize) -> Schema {
    graph(nodes, &(1..nodes).map(|n| (n - 1, n)).collect::<Vec<_>>())
}

/// The edges from one number to before another.
fn edges(from: usize, to: usize) -> Vec<usize> {
    (from..to).collect()
}

/// One node and no more; images of no edges by F, by G, by both.
fn short_images() -> Vec<Case> {
    let (node, edge, three) = (row(1), row(2), row(3));
    let to_node = || mapping(&[0, 0], &[&[]]);
    let along = || mapping(&[0, 1, 1], &[&[0], &[]]);
    vec![
        composable([&node, &node, &node], identity(&node), identity(&node)).case("one node"),
        composable([&edge, &node, &edge], to_node(), mapping(&[1], &[])).case("no edges of F"),
        composable([&edge, &edge, &node], identity(&edge), to_node()).case("no edges of G"),
        composable([&three, &edge, &node], along(), to_node()).case("no edges of F or G"),
        composable([&edge, &three, &edge], mapping(&[0, 2], &[&[0, 1]]), along())
            .case("two edges, one of them to none"),
    ]
}

/// Images of 15 edges, the most that there can be: by F, by G, and by three images of 5;
/// of 15 edges the first to 15 and the others to none, and the last.
fn long_images() -> Vec<Case> {
    let (edge, four, sixteen) = (row(2), row(4), row(16));
    let all = edges(0, 15);
    let whole = || mapping(&[0, 15], &[&all]);
    let fifths: Vec<Vec<usize>> = (0..3).map(|n| edges(5 * n, 5 * n + 5)).collect();
    let fifths: Vec<&[usize]> = fifths.iter().map(Vec::as_slice).collect();
    let in_fifths = mapping(&[0, 5, 10, 15], &fifths);
    let one = |edge: usize| {
        let nodes: Vec<usize> = (0..16).map(|n| if n <= edge { 0 } else { 15 }).collect();
        let image = |n: usize| if n == edge { all.as_slice() } else { &[] };
        mapping(&nodes, &(0..15).map(image).collect::<Vec<_>>())
    };
    let of_four = mapping(&[0, 3], &[&edges(0, 3)]);
    vec![
        composable([&edge, &sixteen, &sixteen], whole(), identity(&sixteen)).case("15 edges of F"),
        composable([&edge, &edge, &sixteen], identity(&edge), whole()).case("15 edges of G"),
        composable([&edge, &four, &sixteen], of_four, in_fifths).case("three images of 5 edges"),
        composable([&edge, &sixteen, &sixteen], whole(), one(0)).case("the first edge to 15"),
        composable([&edge, &sixteen, &sixteen], whole(), one(14)).case("the last edge to 15"),
    ]
}

/// 16 nodes, 32 edges and 16 columns, all edges from the first eight nodes to the others.
fn widest() -> Schema {
    let pairs: Vec<(usize, usize)> = (0..32).map(|n| (n % 8, 8 + n / 4)).collect();
    let mut schema = graph(16, &pairs);
    schema.attributes = (0..16).map(|n| Attribute { node: n % 8, kind: 0 }).collect();
    schema
}

/// The mapping of these to a row of so many nodes with a column at its first: each edge to
/// the whole row.
fn to_row(nodes: usize) -> Mapping {
    let ends: Vec<usize> = (0..16).map(|n| if n < 8 { 0 } else { nodes - 1 }).collect();
    let whole = edges(0, nodes - 1);
    Mapping { attributes: vec![0; 16], ..mapping(&ends, &[whole.as_slice(); 32]) }
}

/// A row with a column at its first node.
fn row_with_column(nodes: usize) -> Schema {
    Schema { attributes: vec![Attribute { node: 0, kind: 0 }], ..row(nodes) }
}

/// Two mappings that compose to the longest mapping sheet.
pub fn longest_composable() -> Composable {
    let (edge, sixteen) = (row_with_column(2), row_with_column(16));
    let g = Mapping { attributes: vec![0], ..mapping(&[0, 15], &[&edges(0, 15)]) };
    composable([&widest(), &edge, &sixteen], to_row(2), g)
}

/// Mapping sheets with every count at its limit: from 52 to 332 bytes, the most that there
/// can be, the longest also as F and as G; trays around it.
fn full_sheets() -> Vec<Case> {
    let wide = widest();
    let mut cases = Vec::new();
    for nodes in [2, 3, 9, 16] {
        let last = row_with_column(nodes);
        let same = identity(&last);
        let case = composable([&wide, &last, &last], to_row(nodes), same);
        cases.push(case.case(format!("32 edges to {} each", nodes - 1)));
    }
    let sixteen = row_with_column(16);
    let as_g = composable([&wide, &wide, &sixteen], identity(&wide), to_row(16));
    cases.push(as_g.case("the longest sheet as G"));
    for tray in [331, 332, 333] {
        let name = format!("the longest sheet, a tray of {tray}");
        cases.push(longest_composable().case(name).with_tray(tray));
    }
    cases
}

/// Schemas of full size, and of half: two copies to one, which is then left as it is, and
/// two copies to two.
fn many_paths() -> Vec<Case> {
    let half = half_schema();
    let (full, to_half) = two_copies(&half);
    vec![
        composable([&full, &half, &half], to_half.clone(), identity(&half))
            .case("256 paths to 128"),
        composable([&full, &full, &half], identity(&full), to_half).case("256 paths, 256, 128"),
    ]
}

/// Edges to the later of two equal edges, or to the longer of two equal paths: by G, and by
/// F and then G.
fn equal_paths() -> Vec<Case> {
    let edge = row(2);
    let mut twins = graph(2, &[(0, 1), (0, 1)]);
    twins.equations.push(equation(0, &[0], &[1]));
    let mut longer = graph(3, &[(0, 2), (0, 1), (1, 2)]);
    longer.equations.push(equation(0, &[0], &[1, 2]));
    let (later, long) = (|| mapping(&[0, 1], &[&[1]]), || mapping(&[0, 2], &[&[1, 2]]));
    let exchanged = mapping(&[0, 1], &[&[1], &[0]]);
    vec![
        composable([&edge, &edge, &twins], identity(&edge), later()).case("the later of two edges"),
        composable([&edge, &twins, &twins], later(), identity(&twins))
            .case("the later, then itself"),
        composable([&edge, &twins, &twins], later(), exchanged).case("the later, then the first"),
        composable([&edge, &edge, &longer], identity(&edge), long())
            .case("the longer of two paths"),
        composable([&edge, &longer, &longer], long(), identity(&longer))
            .case("the longer, then itself"),
    ]
}

/// Two equal edges of S, of T, of U; without T's equation, and without U's.
fn kept_equations() -> Vec<Case> {
    let free = graph(2, &[(0, 1), (0, 1)]);
    let ruled = Schema { equations: vec![equation(0, &[0], &[1])], ..free.clone() };
    let same = |schemas: [&Schema; 3]| composable(schemas, identity(&free), identity(&free));
    let folded =
        composable([&ruled, &free, &row(2)], identity(&free), mapping(&[0, 1], &[&[0], &[0]]));
    vec![
        same([&ruled, &ruled, &ruled]).case("an equation of all three"),
        same([&ruled, &free, &ruled]).case("an equation that T lacks"),
        same([&ruled, &ruled, &free]).case("an equation that U lacks"),
        same([&free, &ruled, &ruled]).case("an equation that S lacks"),
        folded.case("an equation that G alone would make"),
    ]
}

/// Columns in another order by F and by G, several to one by either, and columns that are
/// the image of none.
fn columns() -> Vec<Case> {
    let table = |kinds: &[usize]| {
        let attributes = kinds.iter().map(|&kind| Attribute { node: 0, kind }).collect();
        Schema { attributes, ..row(1) }
    };
    let to = |images: &[usize]| Mapping { attributes: images.to_vec(), ..mapping(&[0], &[]) };
    let (three, one, five) = (table(&[0, 0, 0]), table(&[0]), table(&[0, 3, 0, 0, 3]));
    let sixteen = table(&[7; 16]);
    let turned = |by: usize| (0..16).map(|n| (n + by) % 16).collect::<Vec<_>>();
    vec![
        composable([&three; 3], to(&[1, 2, 0]), to(&[1, 0, 2])).case("columns in another order"),
        composable([&three, &one, &three], to(&[0, 0, 0]), to(&[2])).case("three columns to one"),
        composable([&three, &three, &one], to(&[2, 1, 0]), to(&[0, 0, 0]))
            .case("three to one by G"),
        composable([&three, &five, &five], to(&[3, 0, 2]), to(&[2, 4, 3, 0, 1]))
            .case("columns between others"),
        composable([&sixteen; 3], to(&turned(5)), to(&turned(9))).case("16 columns turned"),
        composable([&one, &five, &five], to(&[3]), to(&[0, 1, 2, 0, 1]))
            .case("an image of several"),
    ]
}

/// Each two sheets of the base example empty, with no tray: the earlier is told.
fn place_by_place() -> Vec<Case> {
    let mut cases = Vec::new();
    for one in 0..5 {
        for other in one..5 {
            let mut case =
                base_composable().case(format!("sheets {} and {} empty", one + 1, other + 1));
            case.sheets[one].clear();
            case.sheets[other].clear();
            cases.push(case.with_tray(0));
        }
    }
    cases
}

/// Trays of every length up to two bytes more than the result has.
fn trays() -> Vec<Case> {
    let case =
        |length: usize| base_composable().case(format!("a tray of {length}")).with_tray(length);
    let needed = result_length(&case(0)).expect("accepted sheets");
    (0..needed + 3).map(case).collect()
}
