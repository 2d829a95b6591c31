//! Request C-14 of document 02, "The first path of a class".

mod common;

use common::*;
use reference::paths::all_paths;
use reference::plain::*;
use reference::*;
use vectors::chains::{long_way, longer_way};

/// A schema without attributes.
fn schema(nodes: usize, edges: &[(usize, usize)], equations: Vec<Equation>) -> Schema {
    Schema { equations, ..graph(nodes, edges) }
}

/// Cases 7 and 8 of document 01: edges a 0 to 1, b 1 to 3, c 0 to 2, d 2 to 3, f
/// 3 to 4.
fn square_with(rule: Equation) -> Schema {
    schema(5, &[(0, 1), (1, 3), (0, 2), (2, 3), (3, 4)], vec![rule])
}

/// The longest path that there is, and the same with another last edge; the two
/// are equal.
fn longest_paths() -> (Schema, Path, Path) {
    let mut edges: Vec<(usize, usize)> = (0..15).map(|node| (node, node + 1)).collect();
    edges.push((14, 15));
    let whole: Vec<usize> = (0..15).collect();
    let other = [&whole[..14], &[15]].concat();
    let s = schema(16, &edges, vec![equation(14, &[15], &[14])]);
    (s, path(0, &whole), path(0, &other))
}

#[test]
fn case_07_has_the_path_with_the_smaller_edges_for_both() {
    let s = square_with(equation(0, &[0, 1], &[2, 3])).to_sheet();
    for p in [[0x02, 0x00, 0x40], [0x02, 0x10, 0xC0]] {
        assert_eq!(first_path(&s, &p), Ok(vec![0x02, 0x00, 0x40]));
    }
    for p in [[0x03, 0x00, 0x48], [0x03, 0x10, 0xC8]] {
        assert_eq!(first_path(&s, &p), Ok(vec![0x03, 0x00, 0x48]));
    }
}

#[test]
fn case_08_has_one_answer_for_the_longer_paths_and_two_for_the_shorter() {
    let s = square_with(equation(0, &[0, 1, 4], &[2, 3, 4]));
    for p in [path(0, &[0, 1]), path(0, &[2, 3])] {
        assert_eq!(first(&s, &p), p);
    }
    for p in [path(0, &[0, 1, 4]), path(0, &[2, 3, 4])] {
        assert_eq!(first(&s, &p), path(0, &[0, 1, 4]));
    }
}

#[test]
fn the_sides_of_an_equation_may_stand_in_either_order() {
    let s = square_with(equation(0, &[2, 3], &[0, 1]));
    for p in [path(0, &[0, 1]), path(0, &[2, 3])] {
        assert_eq!(first(&s, &p), path(0, &[0, 1]));
    }
}

#[test]
fn without_equations_each_path_is_its_own_answer() {
    for s in [schema(1, &[], vec![]), doubled_chain(5), square_with(equation(3, &[], &[]))] {
        for p in all_paths(&s) {
            assert_eq!(first_path(&s.to_sheet(), &p.to_sheet()), Ok(p.to_sheet()));
        }
    }
}

#[test]
fn the_length_decides_before_the_edge_numbers() {
    let s = schema(3, &[(0, 1), (1, 2), (0, 2)], vec![equation(0, &[0, 1], &[2])]);
    for p in [path(0, &[0, 1]), path(0, &[2])] {
        assert_eq!(first(&s, &p), path(0, &[2]));
    }
}

#[test]
fn the_left_edge_decides_before_the_right_one() {
    // From 0 to 1 the edges 0 and 2, from 1 to 2 the edges 1 and 3.
    let edges = [(0, 1), (1, 2), (0, 1), (1, 2)];
    let s = schema(3, &edges, vec![equation(0, &[2, 1], &[0, 3])]);
    for p in [path(0, &[2, 1]), path(0, &[0, 3])] {
        assert_eq!(first(&s, &p), path(0, &[0, 3]));
    }
    for p in [path(0, &[0, 1]), path(0, &[2, 3])] {
        assert_eq!(first(&s, &p), p);
    }
}

#[test]
fn the_first_path_may_be_several_steps_away() {
    let rules = vec![equation(0, &[2], &[3]), equation(0, &[1], &[2]), equation(0, &[0], &[1])];
    let s = schema(2, &[(0, 1); 5], rules);
    for edge in 0..4 {
        assert_eq!(first(&s, &path(0, &[edge])), path(0, &[0]));
    }
    assert_eq!(first(&s, &path(0, &[4])), path(0, &[4]));
}

#[test]
fn the_way_to_the_first_path_may_go_over_longer_ones() {
    // The direct edges 0 and 3 are equal by the path 1, 2 alone.
    let rules = vec![equation(0, &[3], &[1, 2]), equation(0, &[1, 2], &[0])];
    let s = schema(3, &[(0, 2), (0, 1), (1, 2), (0, 2)], rules);
    for p in [path(0, &[0]), path(0, &[3]), path(0, &[1, 2])] {
        assert_eq!(first(&s, &p), path(0, &[0]));
    }
}

#[test]
fn a_part_is_replaced_where_it_stands() {
    let (s, whole, other) = longest_paths();
    for p in [&whole, &other] {
        assert_eq!(first(&s, p), whole);
    }
    assert_eq!(first(&s, &path(14, &[15])), path(14, &[14]));
    assert_eq!(first(&s, &path(3, &other.edges[3..])), path(3, &whole.edges[3..]));
    assert_eq!(first(&s, &path(0, &whole.edges[..14])), path(0, &whole.edges[..14]));
}

#[test]
fn other_starts_or_ends_have_other_answers() {
    let s = square_with(equation(0, &[0, 1], &[2, 3]));
    for (node, target) in [(0, 1), (0, 4), (3, 4)] {
        assert_ne!(first(&s, &path(node, &[])), first(&s, &path(target, &[])));
    }
    assert_ne!(first(&s, &path(1, &[1])), first(&s, &path(2, &[3])));
    assert_ne!(first(&s, &path(0, &[0, 1])), first(&s, &path(0, &[2, 3, 4])));
}

#[test]
fn the_ends_of_the_longest_chains_have_one_answer() {
    for way in [long_way(), longer_way()] {
        let answer = first(&way.schema, &way.from);
        assert_eq!(first(&way.schema, &way.to), answer);
        let same = |p: &&Path| first(&way.schema, p) == answer;
        let paths = all_paths(&way.schema);
        // All have the same answer that a chain leads to, the first of them.
        let equal: Vec<&Path> = paths.iter().filter(same).collect();
        assert!(equal.len() > 220 && *equal[0] == answer);
        let chain = chain(&way.schema, &way.to, &answer);
        assert!(chain.expect("accepted sheets").is_some());
    }
}

#[test]
fn sheets_are_judged_in_their_order() {
    let (s, p) = (schema(2, &[(0, 1); 4], vec![]), path(0, &[0]).to_sheet());
    let ring = Schema { edges: graph(2, &[(0, 1), (1, 0)]).edges, ..s.clone() }.to_sheet();
    let crowd = graph(16, &[&doubled_edges()[..], &[(7, 8)]].concat()).to_sheet();
    let loose = graph(2, &[(0, 2)]).to_sheet();
    let s = s.to_sheet();
    let (cut, tail, stray) = (&p[..1], [&p[..], &[0]].concat(), path(0, &[4]).to_sheet());
    assert_eq!(first_path(&s, &p), Ok(p.clone()));
    // The schema's own numbers, whatever the path.
    for path in [&p[..], &[], cut, &tail, &stray] {
        assert_eq!(first_path(&[], path), refused(1, 1));
        assert_eq!(first_path(&s[..s.len() - 1], path), refused(1, 1));
        assert_eq!(first_path(&[&s[..], &[0]].concat(), path), refused(2, 1));
        assert_eq!(first_path(&[0, 0, 0], path), refused(3, 1));
        assert_eq!(first_path(&loose, path), refused(4, 1));
        assert_eq!(first_path(&ring, path), refused(5, 1));
        assert_eq!(first_path(&crowd, path), refused(6, 1));
    }
    // Then the path's.
    assert_eq!(first_path(&s, &[]), refused(1, 2));
    assert_eq!(first_path(&s, cut), refused(1, 2));
    assert_eq!(first_path(&s, &tail), refused(2, 2));
    assert_eq!(first_path(&s, &stray), refused(4, 2));
    // A tail comes before a stray, and a cut before both.
    assert_eq!(first_path(&s, &[&stray[..], &[0]].concat()), refused(2, 2));
    assert_eq!(first_path(&s, &[0xF1]), refused(1, 2));
    // One edge takes 13 bits, so 3 bits fill the sheet.
    for filling in 0..3 {
        assert_eq!(first_path(&s, &[p[0], p[1] | 1 << filling]), refused(2, 2));
    }
}

/// Case 10 of document 01: a chain of 7 nodes with doubled edges.
fn doubled_edges() -> Vec<(usize, usize)> {
    (0..6).flat_map(|node| [(node, node + 1); 2]).collect()
}

#[test]
fn all_ways_of_a_path_to_be_stray_are_one_number() {
    let s = graph(3, &[(0, 1), (1, 2)]).to_sheet();
    let strays = [
        path(3, &[]),          // a missing node
        path(15, &[0]),        // a missing node before an edge that is there
        path(0, &[2]),         // a missing edge
        path(0, &[0, 31]),     // a missing edge after one that is there
        path(1, &[0]),         // an edge from another node
        path(0, &[0, 0]),      // edges that do not join
        path(0, &[0, 1, 1]),   // the same behind a path
        path(0, &[0; 15][..]), // the longest list there is
    ];
    for stray in strays {
        assert_eq!(first_path(&s, &stray.to_sheet()), refused(4, 2), "{stray:?}");
    }
}

#[test]
fn a_tray_holds_the_answer_or_is_left_alone() {
    let s = square_with(equation(0, &[0, 1], &[2, 3]));
    let answer = first_path(&s.to_sheet(), &path(0, &[2, 3, 4]).to_sheet());
    for small in 0..3 {
        let mut tray = [0xEE; 5];
        assert_eq!(into_tray(answer.clone(), &mut tray[..small]), refused(16, 0));
        assert_eq!(tray, [0xEE; 5]);
    }
    for room in 3..=5 {
        let mut tray = [0xEE; 5];
        assert_eq!(into_tray(answer.clone(), &mut tray[..room]), Ok(3));
        assert_eq!(tray, [0x03, 0x00, 0x48, 0xEE, 0xEE]);
    }
    // A trivial path needs a byte too.
    let trivial = first_path(&s.to_sheet(), &path(4, &[]).to_sheet());
    let mut tray = [0xEE; 2];
    assert_eq!(into_tray(trivial.clone(), &mut []), refused(16, 0));
    assert_eq!(into_tray(trivial, &mut tray), Ok(1));
    assert_eq!(tray, [0x40, 0xEE]);
}

#[test]
fn the_tray_is_for_the_answer_not_for_the_lent_path() {
    // The lent path takes 3 bytes, its answer 2.
    let s = schema(3, &[(0, 1), (1, 2), (0, 2)], vec![equation(0, &[0, 1], &[2])]);
    let lent = path(0, &[0, 1]).to_sheet();
    assert_eq!(lent.len(), 3);
    let mut tray = [0xEE; 3];
    assert_eq!(into_tray(first_path(&s.to_sheet(), &lent), &mut tray[..1]), refused(16, 0));
    assert_eq!(tray, [0xEE; 3]);
    assert_eq!(into_tray(first_path(&s.to_sheet(), &lent), &mut tray), Ok(2));
    assert_eq!(tray, [0x01, 0x10, 0xEE]);
}

#[test]
fn the_longest_answer_takes_eleven_bytes() {
    let (s, whole, other) = longest_paths();
    let answer = first_path(&s.to_sheet(), &other.to_sheet());
    let mut tray = [0xEE; 12];
    assert_eq!(into_tray(answer.clone(), &mut tray[..10]), refused(16, 0));
    assert_eq!(tray, [0xEE; 12]);
    assert_eq!(into_tray(answer, &mut tray), Ok(11));
    assert_eq!(tray[..11], whole.to_sheet());
    assert_eq!(tray[11], 0xEE);
}

#[test]
fn a_small_tray_comes_last() {
    let s = square_with(equation(0, &[0, 1], &[2, 3])).to_sheet();
    let p = path(0, &[2, 3]).to_sheet();
    let mut tray = [0xEE; 2];
    assert_eq!(into_tray(first_path(&[], &p), &mut tray), refused(1, 1));
    assert_eq!(into_tray(first_path(&s, &p[..2]), &mut tray), refused(1, 2));
    assert_eq!(into_tray(first_path(&s, &[&p[..], &[0]].concat()), &mut tray), refused(2, 2));
    assert_eq!(into_tray(first_path(&s, &path(0, &[1]).to_sheet()), &mut tray), refused(4, 2));
    assert_eq!(into_tray(first_path(&s, &p), &mut tray), refused(16, 0));
    assert_eq!(tray, [0xEE; 2]);
}
