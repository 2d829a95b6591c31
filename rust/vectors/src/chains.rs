//! Chains of steps at their limits: the longest, the largest numbers, the trays.

use crate::answer::result_length;
use crate::build::*;
use crate::call::Case;
use crate::questions::Question;
use reference::plain::*;

/// All of them.
pub fn chains() -> Vec<Case> {
    let mut cases = vec![
        long_way().chain("a chain of 220 steps"),
        longer_way().chain("a chain of 222 steps"),
        longer_way().turned().chain("a chain of 222 steps back"),
    ];
    cases.extend(largest_numbers());
    cases.extend(two_steps());
    cases.extend(first_of_several());
    cases.extend(unequal_paths());
    cases.extend(trays());
    cases
}

impl Question {
    /// The question with its paths exchanged.
    fn turned(self) -> Self {
        Question { from: self.to, to: self.from, ..self }
    }
}

/// 17 edges from 0 to 1 and 13 from 1 to 2, 28 equations.  Each path of two edges
/// has its two neighbours and no other: the last edges are equal one to the next,
/// and the first edges where a row of 13 ends.  The chain from end to end has 220
/// steps.
pub fn long_way() -> Question {
    let mut schema = graph(3, &[[(0, 1); 17].as_slice(), &[(1, 2); 13]].concat());
    let along = (17..29).map(|edge| equation(1, &[edge], &[edge + 1]));
    let turn = |row: usize| {
        let end = if row.is_multiple_of(2) { 29 } else { 17 };
        equation(0, &[row, end], &[row + 1, end])
    };
    schema.equations = along.chain((0..16).map(turn)).collect();
    Question::new(&schema, path(0, &[0, 17]), path(0, &[16, 29]))
}

/// The same with an edge from 0 to 2 that equals each end: 256 paths, of which 223
/// are equal, and 222 steps.
pub fn longer_way() -> Question {
    let Question { mut schema, from, to } = long_way();
    schema.edges.extend([Edge { source: 0, target: 2 }; 2]);
    schema.equations.extend([equation(0, &from.edges, &[30]), equation(0, &to.edges, &[31])]);
    Question::new(&schema, path(0, &[30]), path(0, &[31]))
}

/// Equation 31, direction 1, after as many edges as can be before a part of 1, 2,
/// 14 and 15 edges: 16 nodes one behind the other, the last two edges parallel.
fn largest_numbers() -> Vec<Case> {
    let mut edges: Vec<(usize, usize)> = (0..15).map(|node| (node, node + 1)).collect();
    edges.push((14, 15));
    let whole: Vec<usize> = (0..15).collect();
    let other = [&whole[..14], &[15]].concat();
    let part = |length: usize| {
        let mut schema = graph(16, &edges);
        let first = 15 - length;
        schema.equations = vec![equation(15, &[], &[]); 31];
        schema.equations.push(equation(first, &other[first..], &whole[first..]));
        Question::new(&schema, path(0, &whole), path(0, &other))
            .chain(format!("equation 31 back after {first} edges"))
    };
    [1, 2, 14, 15].map(part).to_vec()
}

/// Edges h 0 to 1, g 1 to 3, a 1 to 2, b 2 to 3, c and d 3 to 4, and two
/// equations: g is ab, and c is d.
pub(crate) fn detour(turned: bool) -> Schema {
    let mut schema = graph(5, &[(0, 1), (1, 3), (1, 2), (2, 3), (3, 4), (3, 4)]);
    schema.equations = vec![equation(1, &[1], &[2, 3]), equation(3, &[4], &[5])];
    if turned {
        schema.equations.reverse();
    }
    schema
}

/// Chains of two steps, the edges before the second counted after the first.
fn two_steps() -> Vec<Case> {
    let (hgc, habd) = (path(0, &[0, 1, 4]), path(0, &[0, 2, 3, 5]));
    let both = |turned: bool| {
        let question = Question::new(&detour(turned), hgc.clone(), habd.clone());
        [question.clone().chain("two steps"), question.turned().chain("two steps back")]
    };
    [both(false), both(true)].concat()
}

/// Four parallel edges with these equations.
pub(crate) fn four_edges(rules: &[(usize, usize)]) -> Schema {
    let mut schema = graph(2, &[(0, 1); 4]);
    let rule = |&(left, right): &(usize, usize)| equation(0, &[left], &[right]);
    schema.equations = rules.iter().map(rule).collect();
    schema
}

/// Several chains lead from edge 0 to edge 3: the shortest is taken, and of two
/// such the one with the smaller numbers.
fn first_of_several() -> Vec<Case> {
    let rules: [(&str, &[(usize, usize)]); 6] = [
        ("the first of two chains", &[(0, 1), (0, 2), (1, 3), (2, 3)]),
        ("the first step decides", &[(1, 3), (0, 2), (0, 1), (2, 3)]),
        ("the equation decides before the direction", &[(1, 0), (0, 2), (1, 3), (2, 3)]),
        ("the shorter chain has larger numbers", &[(2, 3), (1, 2), (0, 1), (3, 0)]),
        ("equations that come twice", &[(1, 2), (0, 3), (3, 0), (0, 3)]),
        ("equations that change nothing", &[(0, 0), (3, 3), (1, 1), (0, 1), (1, 3)]),
    ];
    let both = |(name, rules): (&str, &[(usize, usize)])| {
        let question = Question::new(&four_edges(rules), path(0, &[0]), path(0, &[3]));
        [question.clone().chain(name), question.turned().chain(name)]
    };
    rules.map(both).concat()
}

/// No steps, and no chain: trivial paths, other starts and ends, no equation
/// between the two.
fn unequal_paths() -> Vec<Case> {
    let schema = detour(false);
    let chain = |name: &str, from: Path, to: Path| Question::new(&schema, from, to).chain(name);
    vec![
        chain("a path and itself", path(0, &[0, 1, 4]), path(0, &[0, 1, 4])),
        chain("a trivial path and itself", path(4, &[]), path(4, &[])),
        chain("two trivial paths", path(0, &[]), path(4, &[])),
        chain("another start", path(1, &[1]), path(2, &[3])),
        chain("another end", path(1, &[1]), path(1, &[1, 4])),
        chain("another start and end", path(0, &[0]), path(1, &[1])),
        Question::new(&four_edges(&[(0, 1), (2, 3)]), path(0, &[0]), path(0, &[3]))
            .chain("no equation"),
    ]
}

/// Trays of every length up to two bytes more than the chain has, and for the
/// longest chain around its length; without a chain, where the end, the start or no
/// equation is why, of 0 to 2 bytes.
fn trays() -> Vec<Case> {
    let two_steps = Question::new(&detour(false), path(0, &[0, 1, 4]), path(0, &[0, 2, 3, 5]));
    let no_steps = Question { to: two_steps.from.clone(), ..two_steps.clone() };
    let other_end = Question { to: path(0, &[]), ..two_steps.clone() };
    let other_start = Question { to: path(1, &[1, 4]), ..two_steps.clone() };
    let no_equation = Question::new(&four_edges(&[(0, 1)]), path(0, &[0]), path(0, &[3]));
    let case = |question: &Question, length: usize| {
        question.chain(format!("a tray of {length}")).with_tray(length)
    };
    let mut cases = Vec::new();
    for question in [two_steps, no_steps, other_end, other_start, no_equation] {
        let needed = result_length(&case(&question, 0)).unwrap_or(0);
        cases.extend((0..needed + 3).map(|length| case(&question, length)));
    }
    cases.extend([278, 279, 280].map(|length| case(&longer_way(), length)));
    cases
}
