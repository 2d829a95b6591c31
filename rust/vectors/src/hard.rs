//! Sheets made to be hard for Pi's search for families, with their answers and
//! what a call on them may take.

use crate::build::*;
use crate::call::{Call, Case};
use crate::kinds::*;
use crate::puzzles::complete_graph;
use crate::rules::Puzzle;
use reference::plain::*;
use std::time::Duration;

/// A call of Pi that is hard to answer.
#[derive(Debug, Clone)]
pub struct HardSheet {
    /// The call.
    pub case: Case,
    /// The result's sheet, or the number of the refusal.
    pub answer: Result<Vec<u8>, u8>,
    /// So much processor time the call may take.
    pub most: Duration,
}

impl HardSheet {
    fn new(case: Case, answer: Result<Instance, u8>) -> Self {
        let answer = answer.map(|tables| tables.to_sheet());
        HardSheet { case, answer, most: Duration::from_secs(1) }
    }

    /// A puzzle and its solutions.
    pub fn of(name: &str, (puzzle, solutions): Solved) -> Self {
        Self::new(puzzle.case(name), puzzle.result(solutions))
    }

    fn taking_seconds(self, seconds: u64) -> Self {
        HardSheet { most: Duration::from_secs(seconds), ..self }
    }

    /// Points at the ends of `edges`, each edge a pair among `pairs`; there is no
    /// solution.
    fn of_pairs(name: &str, edges: &Pairs, points: usize, pairs: &Pairs) -> Self {
        let rows = |pairs: &Pairs| pairs.iter().map(|&(a, b)| vec![a, b]).collect();
        Self::of(name, (Puzzle::new(points, rows(pairs), rows(edges)), vec![]))
    }

    /// 32 components of two rows, and 32 over a table with so many rows.
    fn doubled(name: &str, rows: usize, answer: Result<Instance, u8>) -> Self {
        let (s, t, f) = (graph(2, &[]), doubled_chain(6), mapping(&[5, 5], &[]));
        let sheets = vec![s.to_sheet(), t.to_sheet(), f.to_sheet()];
        let sheets = [sheets, vec![instance(&[2, rows], &[]).to_sheet()]].concat();
        Self::new(Case::new(name, Call::Pi, sheets).with_tray(Case::MOST_RESULT), answer)
    }

    /// Copies of the colourings of a complete graph.
    fn colourings(name: &str, sizes: [usize; 3], answer: Result<Instance, u8>) -> Self {
        let [vertices, colours, copies] = sizes;
        let case = complete_graph(vertices, colours, copies);
        Self::new(Case { name: name.into(), ..case }, answer)
    }
}

type Pairs = Vec<(usize, usize)>;

/// All pairs of different points.
fn clique(points: usize) -> Pairs {
    (0..points).flat_map(|a| (a + 1..points).map(move |b| (a, b))).collect()
}

/// All pairs of points with different colours, of `colours` in turn.
fn coloured(points: usize, colours: usize) -> Pairs {
    let pairs = (0..points).flat_map(|a| (0..points).map(move |b| (a, b)));
    pairs.filter(|(a, b)| a % colours != b % colours).collect()
}

fn ring(points: usize) -> Pairs {
    (0..points).map(|a| (a, (a + 1) % points)).collect()
}

/// Tables without rows.
fn empty(tables: usize, edges: usize) -> Instance {
    instance(&vec![0; tables], &vec![&[][..]; edges])
}

/// The hard sheets.
pub fn hard_sheets() -> Vec<HardSheet> {
    let all: [Vec<HardSheet>; 4] =
        [of_components().into(), of_points().into(), hardest().into(), of_kinds()];
    all.concat()
}

/// Few rows at each of 60 components and more.
fn of_components() -> [HardSheet; 4] {
    [
        HardSheet::doubled("32 components of 2 rows, 32 over no row", 0, Ok(empty(6, 10))),
        HardSheet::doubled("32 components of 2 rows, 32 over 1 row", 1, Err(15)),
        HardSheet::colourings(
            "4 colours for 5 vertices that all differ, in 4 copies",
            [5, 4, 4],
            Ok(empty(2, 4)),
        ),
        HardSheet::colourings(
            "4 colours for 4 vertices that all differ, in 6 copies",
            [4, 4, 6],
            Err(15),
        ),
    ]
}

fn of_points() -> [HardSheet; 6] {
    let of = HardSheet::of_pairs;
    let ten_points: Pairs = (0..5)
        .flat_map(|n| [(n, (n + 1) % 5), (n, n + 5), (n + 5, (n + 2) % 5 + 5)])
        .chain([(0, 6), (1, 7), (2, 8), (3, 9), (4, 5)])
        .collect();
    let mut two_groups = clique(4);
    two_groups.extend(clique(5).iter().map(|&(a, b)| (a + 4, b + 4)));
    [
        of("20 edges on 10 points in 3 colours", &ten_points, 3, &coloured(3, 3)),
        of("5 points all different in 4 colours", &clique(5), 4, &coloured(4, 4)),
        of("6 points all different in 5 colours", &clique(6), 5, &coloured(5, 5)),
        of(
            "two groups: 4 points that can differ, 5 that cannot, in 4 colours",
            &two_groups,
            4,
            &coloured(4, 4),
        ),
        of("ring of 21, each row forced, 128 rows", &ring(21), 128, &ring(128)),
        of("ring of 27, each row forced, 250 rows", &ring(27), 250, &ring(250)),
    ]
}

fn hardest() -> [HardSheet; 3] {
    let mut most_of_seven = clique(7);
    most_of_seven.retain(|&pair| pair != (0, 1) && pair != (0, 2));
    let (name, pairs) = ("7 points, 19 pairs, 24 of 5 colours", coloured(24, 5));
    let six = Colouring { points: 6, pairs: 15, values: 24, colours: 5, idle: (0, 0) };
    let (puzzle, none) = six.solved(0);
    let in_4_tables = (Puzzle { tables: 4, ..puzzle.clone() }, none.clone());
    [
        HardSheet::of("6 points, all pairs, 24 of 5 colours", (puzzle, none)).taking_seconds(2),
        HardSheet::of("the same in 4 tables", in_4_tables).taking_seconds(8),
        HardSheet::of_pairs(name, &most_of_seven, 24, &pairs).taking_seconds(10),
    ]
}

/// Each kind of puzzle.  A search that takes the components in their order needs
/// more than a minute for each but the colouring and the ring.  The largest puzzle
/// of the last kind, 32 edges between 16 vertices modulo 7, is not here: no search
/// is known that ends.
fn of_kinds() -> Vec<HardSheet> {
    let crossword = Crossword { side: 5, letters: 10, words: 250, free: 7 };
    let five = Colouring { points: 5, pairs: 10, values: 4, colours: 4, idle: (15, 4) };
    let sums = |sums: usize, numbers: usize, modulus: usize| Sums { sums, numbers, modulus };
    let seven = Colouring { points: 7, pairs: 19, values: 24, colours: 5, idle: (0, 0) };
    let (ring, flow) = (Ring { places: 27, values: 250 }, Flow { vertices: 14, modulus: 3 });
    let puzzles = [
        ("7 free components of 2 rows, 5 words by 5 of 250", crossword.solved(3)),
        ("15 idle components of 4 rows, 5 points in 4 colours", five.solved(0)),
        ("16 sums of 3 of 16 numbers modulo 20", sums(16, 16, 20).solved(290)),
        ("15 sums of 3 of 17 numbers modulo 15", sums(15, 17, 15).solved(190)),
        ("16 sums of 3 of 17 numbers modulo 19", sums(16, 17, 19).solved(528)),
        ("7 points, 19 pairs by chance, 24 of 5 colours", seven.solved(1)),
        ("ring of 27, each row forced, 250 rows by chance", ring.solved(1)),
    ];
    let sheets = puzzles.map(|(name, solved)| HardSheet::of(name, solved).taking_seconds(2));
    let last = HardSheet::of("28 edges between 14 vertices modulo 3", flow.solved(1));
    sheets.into_iter().chain([last.taking_seconds(30)]).collect()
}
