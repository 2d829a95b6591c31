//! The puzzles on which the trials of Pi's search are counted: three sizes of
//! each kind.

use vectors::call::Case;
use vectors::kinds::*;

/// A puzzle of a name.
type Named = (&'static str, fn() -> Solved);

fn puzzles() -> [Named; 18] {
    [
        ("words.4", || Crossword { side: 4, letters: 10, words: 80, free: 3 }.solved(1)),
        ("words.5", || Crossword { side: 5, letters: 6, words: 70, free: 5 }.solved(2)),
        ("words.5.more", || Crossword { side: 5, letters: 8, words: 140, free: 7 }.solved(1)),
        ("idle.5", || behind_idle(5)),
        ("idle.10", || behind_idle(10)),
        ("idle.15", || behind_idle(15)),
        ("sums.8", || Sums { sums: 8, numbers: 9, modulus: 9 }.solved(1)),
        ("sums.12", || Sums { sums: 12, numbers: 13, modulus: 13 }.solved(1)),
        ("sums.16", || Sums { sums: 16, numbers: 17, modulus: 19 }.solved(528)),
        ("edges.8", || Flow { vertices: 4, modulus: 3 }.solved(1)),
        ("edges.14", || Flow { vertices: 7, modulus: 3 }.solved(1)),
        ("edges.16", || Flow { vertices: 8, modulus: 3 }.solved(1)),
        ("colours.5", || colouring(5, 9, 9, 3)),
        ("colours.6", || colouring(6, 13, 12, 4)),
        ("colours.7", || colouring(7, 19, 15, 5)),
        ("ring.9", || Ring { places: 9, values: 40 }.solved(1)),
        ("ring.18", || Ring { places: 18, values: 120 }.solved(1)),
        ("ring.27", || Ring { places: 27, values: 250 }.solved(1)),
    ]
}

/// 5 points in 4 colours behind idle places of 4 values.
fn behind_idle(components: usize) -> Solved {
    Colouring { points: 5, pairs: 10, values: 4, colours: 4, idle: (components, 4) }.solved(0)
}

/// Points with too few colours for the pairs that are not left out.
fn colouring(points: usize, pairs: usize, values: usize, colours: usize) -> Solved {
    let solved = Colouring { points, pairs, values, colours, idle: (0, 0) }.solved(1);
    assert!(solved.1.is_empty(), "a colouring");
    solved
}

/// The names, by kind and size.
pub fn names() -> impl Iterator<Item = &'static str> {
    puzzles().into_iter().map(|(name, _)| name)
}

/// The call of Pi on a puzzle.
pub fn puzzle(name: &str) -> Option<Case> {
    let (name, make) = puzzles().into_iter().find(|(known, _)| *known == name)?;
    Some(make().0.case(name))
}
