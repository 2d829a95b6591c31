//! Changes of a run that stands in a lent tray, beside the pushed tray.

use super::{base_f, base_run, base_s, base_t};
use reference::plain::*;
use reference::*;

/// What stands in a tray where no sheet has been written.
pub const FILLING: u8 = 0xEE;

/// What a change gives: the byte lengths of the run and of the pushed sheet.
pub type Lengths = Result<(usize, usize), Refusal>;

/// S, T and mapping, the run in its tray, and the pushed tray.
#[derive(Debug, Clone, PartialEq, Eq)]
pub struct Trays {
    pub s: Vec<u8>,
    pub t: Vec<u8>,
    pub f: Vec<u8>,
    /// The run's whole tray.
    pub run: Vec<u8>,
    /// The run's byte length.
    pub run_length: usize,
    /// The whole pushed tray.
    pub pushed: Vec<u8>,
}

impl Trays {
    /// A run with so many bytes behind it, and a pushed tray of so many bytes.
    pub fn of(sheets: [Vec<u8>; 4], behind: usize, pushed: usize) -> Self {
        let [s, t, f, run] = sheets;
        let run_length = run.len();
        let run = [run, vec![FILLING; behind]].concat();
        Trays { s, t, f, run, run_length, pushed: vec![FILLING; pushed] }
    }

    /// The base example.
    pub fn base(behind: usize, pushed: usize) -> Self {
        Self::of([base_s(), base_t(), base_f(), base_run()], behind, pushed)
    }

    /// The sheet of the run.
    pub fn run_sheet(&self) -> &[u8] {
        &self.run[..self.run_length.min(self.run.len())]
    }

    /// The run, over S.
    pub fn decoded_run(&self) -> Instance {
        let s = Schema::accept(&self.s).expect("an accepted schema");
        Instance::accept(&s, self.run_sheet()).expect("an accepted instance")
    }

    /// Adds a row.
    pub fn add(&mut self, table: usize, row: &[u8]) -> Lengths {
        let Trays { s, t, f, run, run_length, .. } = &*self;
        let result = add_row(s, t, f, run, *run_length, table, row);
        self.settle(result)
    }

    /// Withdraws a row.
    pub fn withdraw(&mut self, table: usize, row: usize) -> Lengths {
        let Trays { s, t, f, run, run_length, .. } = &*self;
        let result = withdraw_row(s, t, f, run, *run_length, table, row);
        self.settle(result)
    }

    /// Writes a change into the trays.  A refused one leaves both; an accepted one
    /// leaves the bytes beyond the results and has a fresh Sigma of the changed
    /// run in the pushed tray.
    fn settle(&mut self, result: Result<ChangedSheets, Refusal>) -> Lengths {
        let before = self.clone();
        let lengths = into_trays(result, &mut self.run, &mut self.pushed);
        let (run, pushed) = lengths.unwrap_or((0, 0));
        assert_eq!(self.run[run..], before.run[run..]);
        assert_eq!(self.pushed[pushed..], before.pushed[pushed..]);
        if lengths.is_ok() {
            self.run_length = run;
            let fresh = sigma(&self.s, &self.t, &self.f, self.run_sheet());
            assert_eq!(fresh, Ok(self.pushed[..pushed].to_vec()));
        }
        lengths
    }
}

/// The sheet of a row.
pub fn row(links: &[usize], values: &[u32]) -> Vec<u8> {
    Row { links: links.to_vec(), values: values.to_vec() }.to_sheet()
}
