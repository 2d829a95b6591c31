//! What a change of a run is lent: schemas and mapping, the run in its tray, the pushed
//! tray, and the change itself.

use crate::answer::Outcome;
use crate::call::{Call, Case, FILLING};
use crate::mappings::Mapped;
use reference::plain::*;

/// A change of a run.
#[derive(Debug, Clone, PartialEq, Eq)]
pub enum Change {
    /// A row is added.
    Add {
        /// The table.
        table: u64,
        /// The row's sheet.
        row: Vec<u8>,
    },
    /// A row is withdrawn.
    Withdraw {
        /// The table.
        table: u64,
        /// The row's number.
        row: u64,
    },
}

impl Change {
    /// The change that adds a row.
    pub fn add(table: usize, row: &Row) -> Self {
        Change::Add { table: table as u64, row: row.to_sheet() }
    }

    /// The change that withdraws a row.
    pub fn withdraw(table: usize, row: usize) -> Self {
        Change::Withdraw { table: table as u64, row: row as u64 }
    }
}

/// What a change is lent besides the change itself.
#[derive(Debug, Clone)]
pub struct Trays {
    /// The sheets of S, T and mapping.
    pub mapped: [Vec<u8>; 3],
    /// The run's whole tray.
    pub run: Vec<u8>,
    /// The run's byte length.
    pub length: u64,
    /// The whole pushed tray.
    pub pushed: Vec<u8>,
}

impl Trays {
    /// A run at the start of its tray, with these bytes behind it, and a pushed tray of so
    /// many bytes.
    pub fn new(mapped: &Mapped, run: &Instance, behind: &[u8], pushed: usize) -> Self {
        let (s, t, f) = mapped.sheets();
        Self::of_sheets([s, t, f, run.to_sheet()], behind, pushed)
    }

    /// The same of sheets.
    pub fn of_sheets(sheets: [Vec<u8>; 4], behind: &[u8], pushed: usize) -> Self {
        let [s, t, f, run] = sheets;
        let length = run.len() as u64;
        let run = [&run[..], behind].concat();
        Trays { mapped: [s, t, f], run, length, pushed: vec![FILLING; pushed] }
    }

    /// A run with as many bytes behind it as make a tray that holds every result, and such
    /// a pushed tray.
    pub fn with_room(sheets: [Vec<u8>; 4]) -> Self {
        let behind = vec![FILLING; Case::MOST_RESULT - sheets[3].len()];
        Self::of_sheets(sheets, &behind, Case::MOST_RESULT)
    }

    /// The call that makes a change.
    pub fn case(&self, name: impl Into<String>, change: Change) -> Case {
        let mut sheets = [&self.mapped[..], std::slice::from_ref(&self.run)].concat();
        let case = match change {
            Change::Add { table, row } => {
                sheets.push(row);
                Case::with_numbers(name, Call::AddRow, sheets, vec![self.length, table])
            }
            Change::Withdraw { table, row } => {
                Case::with_numbers(name, Call::WithdrawRow, sheets, vec![self.length, table, row])
            }
        };
        let untouched = self.pushed.iter().all(|&byte| byte == FILLING);
        let standing = if untouched { vec![] } else { self.pushed.clone() };
        Case { standing, ..case.with_tray(self.pushed.len()) }
    }

    /// The trays as a change leaves them.  An accepted one gives the run another length.
    pub fn settle(&mut self, outcome: &Outcome) {
        self.run = outcome.run.clone().expect("the run's tray after a change");
        self.pushed = outcome.tray.clone();
        if let Some((run, _)) = outcome.lengths() {
            self.length = run as u64;
        }
    }
}
