//! How many cases there are of each call and outcome.

use crate::answer::Outcome;
use crate::call::Call;
use reference::Refusal;
use std::collections::BTreeMap;
use std::fmt;

/// How a call ends.
#[derive(Debug, Clone, Copy, PartialEq, Eq, PartialOrd, Ord)]
pub enum End {
    /// Accepted.
    Accepted,
    /// Accepted, and there is no chain.
    Unequal,
    /// Refused, with place and number.
    Refused {
        /// The place of the sheet, or 0.
        place: u8,
        /// The number.
        number: u8,
    },
}

impl End {
    /// How a call ended.
    pub fn of(call: Call, outcome: &Outcome) -> Self {
        match (call, outcome.answer) {
            (Call::PathChain, Ok(0)) => End::Unequal,
            (_, Ok(_)) => End::Accepted,
            (_, Err(Refusal { number, place })) => End::Refused { place, number },
        }
    }
}

impl fmt::Display for End {
    fn fmt(&self, out: &mut fmt::Formatter<'_>) -> fmt::Result {
        match self {
            End::Accepted => write!(out, "accepted"),
            End::Unequal => write!(out, "unequal"),
            End::Refused { place, number } => write!(out, "refused {number} {place}"),
        }
    }
}

/// The number of cases by call and end.
#[derive(Debug, Clone, Default)]
pub struct Report {
    counts: BTreeMap<(Call, End), usize>,
}

impl Report {
    /// Counts a case.
    pub fn add(&mut self, call: Call, outcome: &Outcome) {
        *self.counts.entry((call, End::of(call, outcome))).or_default() += 1;
    }

    /// The number of cases of a call that end so.
    pub fn count(&self, call: Call, end: End) -> usize {
        self.counts.get(&(call, end)).copied().unwrap_or(0)
    }

    /// Every call and end that was met.
    pub fn met(&self) -> impl Iterator<Item = (Call, End)> + '_ {
        self.counts.keys().copied()
    }

    /// The number of all cases.
    pub fn total(&self) -> usize {
        self.counts.values().sum()
    }
}

/// A line for each call, its ends after it, each with its count.
impl fmt::Display for Report {
    fn fmt(&self, out: &mut fmt::Formatter<'_>) -> fmt::Result {
        for call in Call::ALL {
            let ends: Vec<String> = self
                .counts
                .iter()
                .filter(|((of, _), _)| *of == call)
                .map(|((_, end), count)| format!("{end}: {count}"))
                .collect();
            if !ends.is_empty() {
                writeln!(out, "{}: {}", call.name(), ends.join(", "))?;
            }
        }
        writeln!(out, "cases: {}", self.total())
    }
}
