//! The proved library, called through its wrapper, against the reference: the
//! answer, the whole tray, of a change both, and every lent byte afterwards.

#![forbid(unsafe_code)]
#![warn(missing_docs)]

pub mod composition_laws;
pub mod limit;
pub mod pipe;
pub mod program;

use limit::{each_within, Late};
use migration::*;
use std::fmt;
use std::time::Duration;
use vectors::answer::{reference_outcome, Outcome, FILLING};
use vectors::call::{Call, Case};
use vectors::changes::Streams;
use vectors::random::Random;
use vectors::report::Report;
use vectors::stream::{fixed_and_refused, fixed_and_refused_changes, Chance};

/// So many bytes on each side of a tray are not lent and must stay.
const MARGIN: usize = 32;

/// The time that a case has, with the reference's answer to it: generous, on a
/// machine with much other work.
pub const LIMIT: Duration = Duration::from_secs(120);

/// What the library did instead of answering as it should.
#[derive(Debug, Clone, Copy, PartialEq, Eq)]
pub enum Fault {
    /// It changed what it should not.
    Changed(&'static str),
    /// It gave no answer in time.
    Late(Late<()>),
}

impl fmt::Display for Fault {
    fn fmt(&self, out: &mut fmt::Formatter<'_>) -> fmt::Result {
        match self {
            Fault::Changed(what) => write!(out, "{what} changed"),
            Fault::Late(late) => late.fmt(out),
        }
    }
}

/// A case that the library and the reference answer differently, to which the
/// library gives no answer, or after which a byte has changed that should not.
#[derive(Debug)]
pub struct Difference {
    /// The case.
    pub case: Case,
    /// What the reference answers.
    pub expected: Outcome,
    /// What the library answers, or what it did instead.
    pub found: Result<Outcome, Fault>,
}

impl fmt::Display for Difference {
    fn fmt(&self, out: &mut fmt::Formatter<'_>) -> fmt::Result {
        writeln!(out, "{} ({})", self.case.call.name(), self.case.name)?;
        for (place, sheet) in self.case.sheets.iter().enumerate() {
            writeln!(out, "sheet {}: {}", place + 1, hex(sheet))?;
        }
        for number in &self.case.numbers {
            writeln!(out, "number: {number}")?;
        }
        writeln!(out, "tray: {} bytes", self.case.tray)?;
        let told = |Outcome { answer, tray, run }: &Outcome| {
            let run = run.as_ref().map_or(String::new(), |run| format!(", run {}", hex(run)));
            format!("{answer:?}, tray {}{run}", hex(tray))
        };
        writeln!(out, "expected: {}", told(&self.expected))?;
        match &self.found {
            Ok(outcome) => writeln!(out, "found: {}", told(outcome)),
            Err(fault) => writeln!(out, "found: {fault}"),
        }
    }
}

fn hex(bytes: &[u8]) -> String {
    bytes.iter().map(|byte| format!("{byte:02X}")).collect::<Vec<_>>().join(" ")
}

/// `COUNT [SEED]` of a command line; the seed is 1 where none is given.
pub fn count_and_seed(words: &[String]) -> Option<(usize, u64)> {
    match words {
        [count] => Some((count.parse().ok()?, 1)),
        [count, seed] => Some((count.parse().ok()?, seed.parse().ok()?)),
        _ => None,
    }
}

/// Every kind of case but changes of a run: the fixed ones, those made for a refusal
/// each, then by chance; `count` in all, or as many as are fixed where that is more.
pub fn cases(seed: u64, count: usize) -> impl Iterator<Item = Case> {
    let first = fixed_and_refused(&mut Random::seeded(seed));
    let more = count.saturating_sub(first.len());
    first.into_iter().chain(Chance::seeded(seed).take(more))
}

/// The same of changes of a run: those by chance come in streams, each change lent both
/// trays as the reference leaves them after those before it.  So the library is lent what
/// it left itself, where it does not differ.
pub fn changes(seed: u64, count: usize) -> impl Iterator<Item = Case> {
    let first = fixed_and_refused_changes(&mut Random::seeded(seed));
    let more = count.saturating_sub(first.len());
    first.into_iter().chain(Streams::seeded(seed).take(more))
}

/// What the reference answers to a case, where the library answers the same.
pub fn agreed(
    case: &Case,
    expected: Outcome,
    found: Result<Outcome, Fault>,
) -> Result<Outcome, Box<Difference>> {
    if found.as_ref() == Ok(&expected) {
        return Ok(expected);
    }
    Err(Box::new(Difference { case: case.clone(), expected, found }))
}

/// Tries the cases, each within [`LIMIT`]; how they ended, or the first that
/// differs.
pub fn compare(
    cases: impl Iterator<Item = Case> + Send + 'static,
) -> Result<Report, Box<Difference>> {
    let tried = each_within(LIMIT, move |begin: &dyn Fn(Case)| {
        let mut report = Report::default();
        for case in cases {
            let expected = reference_outcome(&case);
            begin(case.clone());
            let found = library_outcome(&case);
            report.add(case.call, &agreed(&case, expected, found)?);
        }
        Ok(report)
    });
    tried.unwrap_or_else(|late| {
        let case = late.step.expect("the reference answers the first case");
        let expected = reference_outcome(&case);
        let found = Err(Fault::Late(Late { step: None, limit: late.limit }));
        Err(Box::new(Difference { case, expected, found }))
    })
}

/// A tray with bytes on each side of it that are not lent and must stay.
struct Margined {
    bytes: Vec<u8>,
}

impl Margined {
    fn new(tray: &[u8]) -> Self {
        let margin = [FILLING; MARGIN];
        Margined { bytes: [&margin, tray, &margin].concat() }
    }

    fn tray(&mut self) -> &mut [u8] {
        let end = self.bytes.len() - MARGIN;
        &mut self.bytes[MARGIN..end]
    }

    /// The tray, unless a byte beside it changed.
    fn taken(mut self) -> Result<Vec<u8>, Fault> {
        let tray = self.tray().to_vec();
        if self.bytes != Self::new(&tray).bytes {
            return Err(Fault::Changed("a byte beside a tray"));
        }
        Ok(tray)
    }
}

/// What the library answers, or what it changed besides the trays.
pub fn library_outcome(case: &Case) -> Result<Outcome, Fault> {
    let lent = case.clone();
    let mut tray = Margined::new(&case.tray_before());
    let mut run = case.run_before().map(|run| Margined::new(&run));
    let answer = make(&lent, run.as_mut().map_or(&mut [], Margined::tray), tray.tray());
    if lent != *case {
        return Err(Fault::Changed("a sheet"));
    }
    let told =
        |refusal: Refusal| reference::Refusal { number: refusal.number, place: refusal.place };
    let run = run.map(Margined::taken).transpose()?;
    Ok(Outcome { answer: answer.map_err(told), tray: tray.taken()?, run })
}

/// The call of a case through the wrapper, in these trays; that of the run is there for
/// changes alone.
pub fn make(case: &Case, run: &mut [u8], tray: &mut [u8]) -> Result<usize, Refusal> {
    if case.call.is_change() {
        change(&case.sheets, &case.numbers, run, tray)
    } else {
        call(case.call, &case.sheets, tray)
    }
}

/// The change of a run through the wrapper, where it stands in its tray; the run among the
/// sheets is not lent.
fn change(
    sheets: &[Vec<u8>],
    numbers: &[u64],
    run: &mut [u8],
    tray: &mut [u8],
) -> Result<usize, Refusal> {
    let number = |number: u64| usize::try_from(number).expect("64 bits");
    let changed = match (sheets, numbers) {
        ([s, t, f, _, row], &[length, table]) => {
            add_row(s, t, f, run, number(length), number(table), row, tray)
        }
        ([s, t, f, _], &[length, table, row]) => {
            withdraw_row(s, t, f, run, number(length), number(table), number(row), tray)
        }
        _ => unreachable!("a change, lent its sheets and numbers"),
    };
    changed.map(|changed| 65_536 * changed.run + changed.pushed)
}

/// The call that changes no run, through the wrapper.
pub fn call(call: Call, sheets: &[Vec<u8>], tray: &mut [u8]) -> Result<usize, Refusal> {
    match (call, sheets) {
        (Call::CheckSchema, [s]) => check_schema(s).map(|()| 0),
        (Call::CheckMapping, [s, t, f]) => check_mapping(s, t, f).map(|()| 0),
        (Call::CheckInstance, [s, i]) => check_instance(s, i).map(|()| 0),
        (Call::FirstPath, [s, p]) => first_path_into(s, p, tray),
        (Call::Delta, [s, t, f, j]) => delta_into(s, t, f, j, tray),
        (Call::Sigma, [s, t, f, i]) => sigma_into(s, t, f, i, tray),
        (Call::Pi, [s, t, f, i]) => pi_into(s, t, f, i, tray),
        (Call::CheckPushed, [s, t, f, run, book, list]) => {
            check_pushed(s, t, f, run, book, list).map(|()| 0)
        }
        (Call::CheckRaw, [s, t, f, run, book, list]) => {
            check_raw(s, t, f, run, book, list).map(|()| 0)
        }
        (Call::PushedToRaw, [s, t, f, run, book, list]) => {
            pushed_to_raw_into(s, t, f, run, book, list, tray)
        }
        (Call::RawToPushed, [s, t, f, run, book, list]) => {
            raw_to_pushed_into(s, t, f, run, book, list, tray)
        }
        (Call::PathChain, [s, p, q]) => {
            path_chain_into(s, p, q, tray).map(|length| length.unwrap_or(0))
        }
        (Call::Query, [s1, s2, s3, s4, f, g, h, run]) => {
            query_into(s1, s2, s3, s4, f, g, h, run, tray)
        }
        (Call::Compose, [s, t, u, f, g]) => compose_into(s, t, u, f, g, tray),
        _ => unreachable!("a call lent its sheets"),
    }
}
