//! The order of Pi's rows, and Pi on inputs of full size.

mod common;

use common::*;
use reference::plain::*;
use reference::*;
use vectors::random::Random;
use vectors::schemas::graph as random_graph;

/// Pi's result, decoded.
fn gathered(s: &Schema, t: &Schema, f: &Mapping, i: &Instance) -> Instance {
    let sheet = pi(&s.to_sheet(), &t.to_sheet(), &f.to_sheet(), &i.to_sheet());
    decoded(t, &sheet.expect("a result"))
}

#[test]
fn components_of_one_node_are_ordered_by_their_first_paths() {
    // The path 2 of length 1 comes before the path 0, 1 of length 2.
    let (s, t) = (graph(1, &[]), graph(3, &[(0, 1), (1, 2), (0, 2)]));
    let (f, i) = (mapping(&[2], &[]), instance(&[2], &[]));
    let result = gathered(&s, &t, &f, &i);
    assert_eq!(result.rows, [4, 2, 2]);
    assert_eq!(result.links, [vec![0, 1, 0, 1], vec![0, 1], vec![0, 0, 1, 1]]);
}

#[test]
fn a_class_stands_at_its_first_path() {
    // The class of 2 and of 0, 1 comes before the class of 3.
    let (s, mut t) = (graph(1, &[]), graph(3, &[(0, 1), (1, 2), (0, 2), (0, 2)]));
    t.equations.push(equation(0, &[0, 1], &[2]));
    let (f, i) = (mapping(&[2], &[]), instance(&[2], &[]));
    let result = gathered(&s, &t, &f, &i);
    assert_eq!(result.rows, [4, 2, 2]);
    let (class, other) = (vec![0, 0, 1, 1], vec![0, 1, 0, 1]);
    assert_eq!(result.links, [class.clone(), vec![0, 1], class, other]);
}

#[test]
fn components_are_ordered_by_their_nodes_first() {
    // Node 0 of S lies over the far node 2, node 1 of S over the near node 1.
    let (s, t) = (graph(2, &[]), graph(3, &[(0, 1), (0, 2)]));
    let (f, i) = (mapping(&[2, 1], &[]), instance(&[2, 3], &[]));
    let result = gathered(&s, &t, &f, &i);
    assert_eq!(result.rows, [6, 3, 2]);
    assert_eq!(result.links, [vec![0, 1, 2, 0, 1, 2], vec![0, 0, 0, 1, 1, 1]]);
}

#[test]
fn attributes_are_read_at_the_trivial_path() {
    // Both tables of S lie over one node, each with a column; T has both.
    let column = |node| Attribute { node, kind: 0 };
    let (mut s, mut t) = (graph(2, &[(1, 0)]), graph(1, &[]));
    s.attributes = vec![column(0), column(1)];
    t.attributes = vec![column(0), column(0)];
    let f = Mapping { attributes: vec![1, 0], ..mapping(&[0, 0], &[&[]]) };
    let i = Instance {
        values: vec![vec![10, 11], vec![20, 21, 22]],
        ..instance(&[2, 3], &[&[1, 0, 1]])
    };
    // Families: rows of table 0 with a row of table 1 that leads there.
    let result = gathered(&s, &t, &f, &i);
    assert_eq!(result.rows, [3]);
    assert_eq!(result.values, [[21, 20, 22], [10, 11, 11]]);
}

#[test]
fn pi_along_the_identity_keeps_a_large_run() {
    // 63 components at node 0, each with 85 rows.
    let s = doubled_chain(6);
    let mut random = Random::seeded(10);
    let mut link = |_| (0..85).map(|_| random.below(85)).collect();
    let i = Instance { rows: vec![85; 6], links: (0..10).map(&mut link).collect(), values: vec![] };
    assert_eq!(gathered(&s, &s, &identity(&s), &i), i);
}

#[test]
fn large_random_mappings_come_to_an_end() {
    let mut random = Random::seeded(11);
    for round in 0..400 {
        let t = random_graph(&mut random, 8, 14);
        let s = graph(1 + random.below(10), &[]);
        let nodes: Vec<usize> = (0..s.nodes).map(|_| random.below(t.nodes)).collect();
        let f = mapping(&nodes, &[]);
        let most_rows = [2, 3, 6, 50][round % 4];
        let rows: Vec<usize> = (0..s.nodes).map(|_| random.below(most_rows + 1)).collect();
        let i = instance(&rows, &[]);
        match pi(&s.to_sheet(), &t.to_sheet(), &f.to_sheet(), &i.to_sheet()) {
            Ok(result) => assert_eq!(check_instance(&t.to_sheet(), &result), Ok(())),
            Err(refusal) => assert!(matches!(refusal.number, 14 | 15)),
        }
    }
}
