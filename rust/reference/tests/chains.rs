//! Request C-11 of document 02, "Which rules made these paths equal".

mod common;

use common::*;
use reference::paths::all_paths;
use reference::plain::*;
use reference::*;
use vectors::chains::{long_way, longer_way};

/// A schema without attributes.
fn schema(nodes: usize, edges: &[(usize, usize)], equations: Vec<Equation>) -> Schema {
    Schema { equations, ..graph(nodes, edges) }
}

/// Four edges from 0 to 1.
fn four_edges(equations: Vec<Equation>) -> Schema {
    schema(2, &[(0, 1); 4], equations)
}

/// Cases 7 and 8 of document 01: edges a 0 to 1, b 1 to 3, c 0 to 2, d 2 to 3, f
/// 3 to 4.
fn square_with(rule: Equation) -> Schema {
    schema(5, &[(0, 1), (1, 3), (0, 2), (2, 3), (3, 4)], vec![rule])
}

/// The call gives these steps.
#[track_caller]
fn assert_chain(s: &Schema, p: &Path, q: &Path, steps: &[Numbers]) {
    assert_eq!(chain(s, p, q), Ok(Some(written(steps))));
}

#[test]
fn case_07_has_chains_of_one_step() {
    let s = square_with(equation(0, &[0, 1], &[2, 3]));
    let (ab, cd) = (path(0, &[0, 1]), path(0, &[2, 3]));
    let (abf, cdf) = (path(0, &[0, 1, 4]), path(0, &[2, 3, 4]));
    assert_eq!(chain(&s, &ab, &cd), Ok(Some(vec![0x01, 0x00, 0x00])));
    assert_eq!(chain(&s, &abf, &cdf), Ok(Some(vec![0x01, 0x00, 0x00])));
}

#[test]
fn case_08_has_no_chain_between_the_shorter_paths() {
    let s = square_with(equation(0, &[0, 1, 4], &[2, 3, 4]));
    let (ab, cd) = (path(0, &[0, 1]), path(0, &[2, 3]));
    let (abf, cdf) = (path(0, &[0, 1, 4]), path(0, &[2, 3, 4]));
    assert_eq!(chain(&s, &ab, &cd), Ok(None));
    assert_eq!(chain(&s, &cd, &ab), Ok(None));
    assert_chain(&s, &abf, &cdf, &[[0, 0, 0]]);
}

#[test]
fn the_way_back_has_direction_1() {
    let s = square_with(equation(0, &[0, 1], &[2, 3]));
    let (abf, cdf) = (path(0, &[0, 1, 4]), path(0, &[2, 3, 4]));
    assert_eq!(chain(&s, &cdf, &abf), Ok(Some(vec![0x01, 0x04, 0x00])));
}

#[test]
fn other_starts_or_ends_have_no_chain() {
    let s = square_with(equation(0, &[0, 1], &[2, 3]));
    assert_eq!(chain(&s, &path(0, &[]), &path(1, &[])), Ok(None));
    assert_eq!(chain(&s, &path(1, &[1]), &path(2, &[3])), Ok(None));
    assert_eq!(chain(&s, &path(0, &[0, 1]), &path(0, &[2, 3, 4])), Ok(None));
}

#[test]
fn equal_lists_have_a_chain_of_no_steps() {
    let square = square_with(equation(0, &[0, 1], &[2, 3]));
    let twins = four_edges(vec![equation(0, &[1], &[1]), equation(0, &[], &[])]);
    for s in [square, twins] {
        for p in all_paths(&s) {
            assert_eq!(chain(&s, &p, &p), Ok(Some(vec![0x00])));
        }
    }
}

#[test]
fn a_chain_is_as_long_as_its_paths_are_apart() {
    let rules = vec![equation(0, &[2], &[3]), equation(0, &[1], &[2]), equation(0, &[0], &[1])];
    let s = four_edges(rules);
    assert_chain(&s, &path(0, &[0]), &path(0, &[3]), &[[2, 0, 0], [1, 0, 0], [0, 0, 0]]);
    assert_chain(&s, &path(0, &[3]), &path(0, &[1]), &[[0, 1, 0], [1, 1, 0]]);
    // A shorter chain goes before one with smaller numbers.
    let mut s = s;
    s.equations.push(equation(0, &[3], &[0]));
    assert_chain(&s, &path(0, &[0]), &path(0, &[3]), &[[3, 1, 0]]);
}

#[test]
fn of_two_shortest_chains_the_first_is_given() {
    let (p, q) = (path(0, &[0]), path(0, &[3]));
    let [a, b, c, d] = [(0, 1), (0, 2), (1, 3), (2, 3)]
        .map(|(left, right): (usize, usize)| equation(0, &[left], &[right]));
    let by_1 = four_edges(vec![a.clone(), b.clone(), c.clone(), d.clone()]);
    assert_chain(&by_1, &p, &q, &[[0, 0, 0], [2, 0, 0]]);
    assert_chain(&by_1, &q, &p, &[[2, 1, 0], [0, 1, 0]]);
    // The first step decides before the second does.
    let by_2 = four_edges(vec![c.clone(), b.clone(), a.clone(), d.clone()]);
    assert_chain(&by_2, &p, &q, &[[1, 0, 0], [3, 0, 0]]);
    assert_chain(&by_2, &q, &p, &[[0, 1, 0], [2, 1, 0]]);
    // The equation decides before the direction does.
    let turned = equation(0, &[1], &[0]);
    let by_1 = four_edges(vec![turned, b, c, d]);
    assert_chain(&by_1, &p, &q, &[[0, 1, 0], [2, 0, 0]]);
}

#[test]
fn of_two_same_equations_the_first_is_named() {
    let rule = equation(0, &[0], &[1]);
    let s = four_edges(vec![equation(0, &[2], &[3]), rule.clone(), rule]);
    assert_chain(&s, &path(0, &[0]), &path(0, &[1]), &[[1, 0, 0]]);
    assert_chain(&s, &path(0, &[1]), &path(0, &[0]), &[[1, 1, 0]]);
}

/// Edges g 0 to 2, a 0 to 1, b 1 to 2, c and d 2 to 3.
fn detour_with(rules: [Equation; 2]) -> Schema {
    schema(4, &[(0, 2), (0, 1), (1, 2), (2, 3), (2, 3)], rules.to_vec())
}

#[test]
fn edges_before_are_counted_as_the_path_stands() {
    let (g_ab, c_d) = (equation(0, &[0], &[1, 2]), equation(2, &[3], &[4]));
    let (gc, abd) = (path(0, &[0, 3]), path(0, &[1, 2, 4]));
    let s = detour_with([g_ab.clone(), c_d.clone()]);
    assert_chain(&s, &gc, &abd, &[[0, 0, 0], [1, 0, 2]]);
    assert_chain(&s, &abd, &gc, &[[0, 1, 0], [1, 1, 1]]);
    let s = detour_with([c_d, g_ab]);
    assert_chain(&s, &gc, &abd, &[[0, 0, 1], [1, 0, 0]]);
    assert_chain(&s, &abd, &gc, &[[0, 1, 2], [1, 1, 0]]);
}

#[test]
fn fifteen_edges_may_stand_before_a_replaced_part() {
    let mut edges: Vec<(usize, usize)> = (0..15).map(|node| (node, node + 1)).collect();
    edges.push((14, 15));
    let whole: Vec<usize> = (0..15).collect();
    let other = [&whole[..14], &[15]].concat();
    let s = schema(16, &edges, vec![equation(15, &[], &[]), equation(14, &[14], &[15])]);
    assert_chain(&s, &path(0, &whole), &path(0, &other), &[[1, 0, 14]]);
    let last = |direction| Step { equation: 0, direction, before: 15 };
    let before = Step { equation: 1, direction: 0, before: 14 };
    let steps = path(0, &whole).steps(&s);
    let whole = path(0, &whole);
    let ways = [(last(0), whole.clone()), (last(1), whole), (before, path(0, &other))];
    assert_eq!(steps, ways);
}

#[test]
fn trivial_sides_are_replaced_where_the_node_is_right() {
    let s = schema(3, &[(0, 1), (1, 2), (0, 2)], vec![equation(1, &[], &[])]);
    let numbers = |p: &Path| -> Vec<Numbers> {
        let steps = p.steps(&s).into_iter();
        steps
            .map(|(step, next)| {
                assert_eq!(next, *p);
                [step.equation, step.direction, step.before]
            })
            .collect()
    };
    assert_eq!(numbers(&path(0, &[0, 1])), [[0, 0, 1], [0, 1, 1]]);
    assert_eq!(numbers(&path(0, &[0])), [[0, 0, 1], [0, 1, 1]]);
    assert_eq!(numbers(&path(1, &[1])), [[0, 0, 0], [0, 1, 0]]);
    assert_eq!(numbers(&path(1, &[])), [[0, 0, 0], [0, 1, 0]]);
    assert!(numbers(&path(0, &[2])).is_empty());
    assert!(numbers(&path(0, &[])).is_empty());
    assert_eq!(chain(&s, &path(0, &[0, 1]), &path(0, &[2])), Ok(None));
}

#[test]
fn steps_that_change_nothing_are_in_no_shortest_chain() {
    let rules = vec![
        equation(0, &[], &[]),
        equation(1, &[], &[]),
        equation(0, &[0], &[0]),
        equation(0, &[1], &[1]),
        equation(0, &[0], &[1]),
    ];
    let s = four_edges(rules);
    assert_chain(&s, &path(0, &[0]), &path(0, &[1]), &[[4, 0, 0]]);
    assert_chain(&s, &path(0, &[]), &path(0, &[]), &[]);
    assert_eq!(chain(&s, &path(0, &[0]), &path(0, &[2])), Ok(None));
}

/// The steps of the long way, row by row: along the last edges forth and back, and
/// at the end of each row one step to the next.
fn steps_of_the_long_way() -> Vec<Numbers> {
    let mut steps = Vec::new();
    for row in 0..17 {
        match row % 2 {
            0 => steps.extend((0..12).map(|at| [at, 0, 1])),
            _ => steps.extend((0..12).rev().map(|at| [at, 1, 1])),
        }
        if row < 16 {
            steps.push([12 + row, 0, 0]);
        }
    }
    steps
}

#[test]
fn the_longest_chains_are_found() {
    let (way, mut steps) = (long_way(), steps_of_the_long_way());
    assert_eq!((way.schema.equations.len(), steps.len()), (28, 220));
    assert_chain(&way.schema, &way.from, &way.to, &steps);
    // Two direct edges, one equal to each end.
    let way = longer_way();
    steps.insert(0, [28, 1, 0]);
    steps.push([29, 0, 0]);
    assert_eq!((all_paths(&way.schema).len(), steps.len()), (256, 222));
    assert_chain(&way.schema, &way.from, &way.to, &steps);
    assert_eq!(written(&steps).len(), 279);
}

#[test]
fn sheets_are_judged_in_their_order() {
    let (s, p) = (four_edges(vec![]).to_sheet(), path(0, &[0]).to_sheet());
    let ring = schema(2, &[(0, 1), (1, 0)], vec![]).to_sheet();
    let (cut, tail, stray) = (&p[..1], [&p[..], &[0]].concat(), path(0, &[4]).to_sheet());
    assert_eq!(path_chain(&s, &p, &p), Ok(Some(vec![0])));
    assert_eq!(path_chain(&[], &[], &[]), refused(1, 1));
    assert_eq!(path_chain(&ring, cut, &tail), refused(5, 1));
    assert_eq!(path_chain(&s, &stray, cut), refused(4, 2));
    assert_eq!(path_chain(&s, &tail, &stray), refused(2, 2));
    assert_eq!(path_chain(&s, cut, &stray), refused(1, 2));
    assert_eq!(path_chain(&s, &p, cut), refused(1, 3));
    assert_eq!(path_chain(&s, &p, &tail), refused(2, 3));
    assert_eq!(path_chain(&s, &p, &stray), refused(4, 3));
    // A path of the schema with a path that does not join.
    assert_eq!(chain(&four_edges(vec![]), &path(0, &[0]), &path(1, &[0])), refused(4, 3));
}

#[test]
fn a_small_tray_comes_last_and_only_for_a_chain() {
    let s = square_with(equation(0, &[0, 1], &[2, 3]));
    let (ab, cd, f) = (path(0, &[0, 1]), path(0, &[2, 3]), path(3, &[4]));
    let one_step = chain(&s, &ab, &cd);
    let mut tray = [0xEE; 5];
    for small in 0..3 {
        assert_eq!(into_tray_or_none(one_step.clone(), &mut tray[..small]), refused(16, 0));
        assert_eq!(tray, [0xEE; 5]);
    }
    for room in 3..=5 {
        let mut tray = [0xEE; 5];
        assert_eq!(into_tray_or_none(one_step.clone(), &mut tray[..room]), Ok(3));
        assert_eq!(tray, [0x01, 0x00, 0x00, 0xEE, 0xEE]);
    }
    // A chain of no steps needs a byte too.
    assert_eq!(into_tray_or_none(chain(&s, &ab, &ab), &mut []), refused(16, 0));
    assert_eq!(into_tray_or_none(chain(&s, &ab, &ab), &mut tray), Ok(1));
    assert_eq!(tray, [0x00, 0xEE, 0xEE, 0xEE, 0xEE]);
    for room in 0..=5 {
        let mut tray = [0xEE; 5];
        assert_eq!(into_tray_or_none(chain(&s, &ab, &f), &mut tray[..room]), Ok(0));
        assert_eq!(into_tray_or_none(refused(4, 3), &mut tray[..room]), refused(4, 3));
        assert_eq!(tray, [0xEE; 5]);
    }
    let stray = chain(&s, &ab, &path(0, &[1]));
    assert_eq!(into_tray_or_none(stray, &mut []), refused(4, 3));
}
