//! First paths of classes: which one is first, large classes, the trays.

use crate::answer::result_length;
use crate::build::*;
use crate::call::Case;
use crate::chains::{detour, four_edges, long_way, longer_way};
use crate::questions::Question;
use reference::plain::*;

/// All of them.
pub fn first_paths() -> Vec<Case> {
    let mut cases = small_classes();
    cases.extend(orders());
    cases.extend(several_equations());
    cases.extend(two_equations());
    cases.extend(large_classes());
    cases.extend(longest_paths());
    cases.extend(trays());
    cases
}

/// The question for one path.
fn ask(name: &str, schema: &Schema, path: Path) -> Case {
    let [case, _] = Question::new(schema, path.clone(), path).firsts(name);
    case
}

/// Paths that are first in their class, and paths that are not.
fn small_classes() -> Vec<Case> {
    let schema = detour(false);
    vec![
        ask("a trivial path", &schema, path(4, &[])),
        ask("alone in its class", &schema, path(0, &[0])),
        ask("the first of its class", &schema, path(0, &[0, 1, 4])),
        ask("a shorter path is first", &schema, path(0, &[0, 2, 3, 5])),
        ask("another path of its length is first", &schema, path(0, &[0, 1, 5])),
        ask("another start", &schema, path(1, &[2, 3, 5])),
    ]
}

/// A schema with one equation.
fn ruled(nodes: usize, edges: &[(usize, usize)], rule: Equation) -> Schema {
    Schema { equations: vec![rule], ..graph(nodes, edges) }
}

/// Length decides before the edge numbers, and of these the first that differs.
fn orders() -> Vec<Case> {
    let triangle = ruled(3, &[(0, 1), (1, 2), (0, 2)], equation(0, &[0, 1], &[2]));
    let pairs = ruled(3, &[(0, 1), (0, 1), (1, 2), (1, 2)], equation(0, &[1, 2], &[0, 3]));
    vec![
        ask("length decides before edges", &triangle, path(0, &[0, 1])),
        ask("the first edge decides", &pairs, path(0, &[1, 2])),
    ]
}

/// Classes that no single equation makes: parallel edges one equal to the next, and
/// a path that equals the first only by way of a longer one.
fn several_equations() -> Vec<Case> {
    let rows: [&[(usize, usize)]; 4] = [
        &[(3, 2), (2, 1), (1, 0)],
        &[(1, 0), (2, 1), (3, 2)],
        &[(0, 1), (2, 3), (1, 2)],
        &[(2, 3), (0, 1), (3, 0)],
    ];
    let last_edge = |rules: &&[(usize, usize)]| {
        ask("three equations one after the other", &four_edges(rules), path(0, &[3]))
    };
    let mut cases: Vec<Case> = rows.iter().map(last_edge).collect();
    let mut hill = graph(4, &[(0, 2), (0, 2), (0, 1), (1, 2), (2, 3)]);
    hill.equations = vec![equation(0, &[2, 3], &[1]), equation(0, &[0], &[2, 3])];
    cases.push(ask("by way of a longer path", &hill, path(0, &[1])));
    cases.push(ask("by way of a longer path, inside", &hill, path(0, &[1, 4])));
    cases
}

/// Each of four parallel edges with each two of the six equations between them: classes
/// of three and one, and of two and two.
fn two_equations() -> Vec<Case> {
    let rules = [(1, 0), (0, 2), (3, 0), (1, 2), (3, 1), (2, 3)];
    let mut cases = Vec::new();
    for (place, &one) in rules.iter().enumerate() {
        for &other in &rules[..place] {
            let schema = four_edges(&[one, other]);
            let name = format!("equations {one:?} and {other:?}");
            cases.extend((0..4).map(|edge| ask(&name, &schema, path(0, &[edge]))));
        }
    }
    cases
}

/// Classes of 221 paths among 254, and of 223 among 256.
fn large_classes() -> Vec<Case> {
    let [one, other] = long_way().firsts("a class of 221 paths");
    let [edge, other_edge] = longer_way().firsts("a class of 223 paths");
    let longer = ask("a class of 223 paths", &longer_way().schema, long_way().to);
    vec![one, other, edge, other_edge, longer]
}

/// 16 nodes one behind the other, the last two edges parallel, and an edge beside them
/// all, with this equation.
fn long_chain(rule: Equation) -> Schema {
    let mut edges: Vec<(usize, usize)> = (0..15).map(|node| (node, node + 1)).collect();
    edges.extend([(14, 15), (0, 15)]);
    ruled(16, &edges, rule)
}

/// The path of 15 edges with another last edge.
fn other_end() -> Path {
    path(0, &[(0..14).collect(), vec![15]].concat())
}

/// Paths of 15 edges, for which 15 others, one edge, or themselves are first; and the
/// trivial path at the last node.
fn longest_paths() -> Vec<Case> {
    let last = long_chain(equation(14, &[15], &[14]));
    let whole = long_chain(equation(0, &other_end().edges, &[16]));
    vec![
        ask("15 edges for 15", &last, other_end()),
        ask("one edge for 15", &whole, other_end()),
        ask("15 edges alone", &whole, path(0, &(0..15).collect::<Vec<_>>())),
        ask("the last node", &whole, path(15, &[])),
    ]
}

/// Trays of every length up to two bytes more than the first path has: 1, 3 and 11
/// bytes, the last two where the lent path is longer, and where it is as long.
fn trays() -> Vec<Case> {
    let last = long_chain(equation(14, &[15], &[14]));
    let asked = [
        ask("", &detour(false), path(4, &[])),
        ask("", &detour(false), path(0, &[0, 2, 3, 5])),
        ask("", &last, other_end()),
    ];
    let around = |case: &Case| {
        let needed = result_length(case).expect("a first path");
        let tray = |length: usize| {
            let name = format!("a tray of {length} for {needed}");
            Case { name, ..case.clone() }.with_tray(length)
        };
        (0..needed + 3).map(tray).collect::<Vec<_>>()
    };
    asked.iter().flat_map(around).collect()
}
