//! The stored questions about two paths, with their answers: those of the call that
//! said whether two paths are equal, which two first paths now answer.
//!
//! The file has a line for each: schema, first path and second path as hexadecimal
//! numbers, `-` where a sheet is empty; then `equal`, `unequal`, or `refused` with
//! number and place.

/// What was answered.
#[derive(Debug, Clone, Copy, PartialEq, Eq)]
pub enum Answer {
    /// The paths are equal.
    Equal,
    /// The paths are unequal.
    Unequal,
    /// Refused.
    Refused {
        /// The number.
        number: u8,
        /// The place: 1 the schema's, 2 the first path's, 3 the second's.
        place: u8,
    },
}

/// A stored question.
#[derive(Debug, Clone)]
pub struct PathQuestion {
    /// Schema, first path, second path.
    pub sheets: [Vec<u8>; 3],
    /// What was answered.
    pub answer: Answer,
}

/// All of them.
pub fn path_questions() -> Vec<PathQuestion> {
    include_str!("../stored/path_questions").lines().map(read).collect()
}

fn read(line: &str) -> PathQuestion {
    let words: Vec<&str> = line.split(' ').collect();
    let [s, p, q, answer @ ..] = words.as_slice() else { panic!("three sheets: {line}") };
    let number = |word: &str| word.parse().expect("a number");
    let answer = match answer {
        ["equal"] => Answer::Equal,
        ["unequal"] => Answer::Unequal,
        ["refused", first, second] => {
            Answer::Refused { number: number(first), place: number(second) }
        }
        _ => panic!("no answer: {line}"),
    };
    PathQuestion { sheets: [s, p, q].map(|word| sheet(word)), answer }
}

fn sheet(word: &str) -> Vec<u8> {
    let byte = |at: usize| u8::from_str_radix(&word[at..at + 2], 16).expect("a byte");
    let digits = if word == "-" { 0 } else { word.len() };
    (0..digits).step_by(2).map(byte).collect()
}
