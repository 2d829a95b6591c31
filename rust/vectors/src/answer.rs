//! What the reference answers to a case.

use crate::call::{Call, Case};
use reference::*;

pub use crate::call::FILLING;

/// What a call gives and leaves behind.
#[derive(Debug, Clone, PartialEq, Eq)]
pub struct Outcome {
    /// For an accepted call the byte length of its result; 0 for a check, and where
    /// there is no chain; for a change 65,536 times the run's length plus the pushed
    /// sheet's.
    pub answer: Result<usize, Refusal>,
    /// The whole tray afterwards.
    pub tray: Vec<u8>,
    /// Of a change the run's whole tray afterwards.
    pub run: Option<Vec<u8>>,
}

impl Outcome {
    /// The answer as the number of the C calls: below 2^32 where accepted, else
    /// 2^32 + 256 * number + place.
    pub fn number(&self) -> u64 {
        match self.answer {
            Ok(number) => number as u64,
            Err(refusal) => (1 << 32) + 256 * u64::from(refusal.number) + u64::from(refusal.place),
        }
    }

    /// The byte lengths of an accepted change: of the run, and of the pushed sheet.
    pub fn lengths(&self) -> Option<(usize, usize)> {
        let answer = self.answer.ok().filter(|_| self.run.is_some());
        answer.map(|answer| (answer / 65_536, answer % 65_536))
    }
}

/// What the reference answers, before it is written to a tray; nothing where
/// there is no chain.
fn result(case: &Case) -> Result<Option<Vec<u8>>, Refusal> {
    let sheets: Vec<&[u8]> = case.sheets.iter().map(Vec::as_slice).collect();
    let sheet = match (case.call, sheets.as_slice()) {
        (Call::FirstPath, [s, p]) => first_path(s, p),
        (Call::Delta, [s, t, f, j]) => delta(s, t, f, j),
        (Call::Sigma, [s, t, f, i]) => sigma(s, t, f, i),
        (Call::Pi, [s, t, f, i]) => pi(s, t, f, i),
        (Call::PushedToRaw, [s, t, f, run, book, list]) => pushed_to_raw(s, t, f, run, book, list),
        (Call::RawToPushed, [s, t, f, run, book, list]) => raw_to_pushed(s, t, f, run, book, list),
        (Call::PathChain, [s, p, q]) => return path_chain(s, p, q),
        (Call::Query, [s1, s2, s3, s4, f, g, h, run]) => query(s1, s2, s3, s4, f, g, h, run),
        (Call::Compose, [s, t, u, f, g]) => compose(s, t, u, f, g),
        _ => unreachable!("a call with a tray, lent its sheets"),
    };
    sheet.map(Some)
}

/// What the reference answers to a call without a tray.
fn number(case: &Case) -> Result<usize, Refusal> {
    let sheets: Vec<&[u8]> = case.sheets.iter().map(Vec::as_slice).collect();
    match (case.call, sheets.as_slice()) {
        (Call::CheckSchema, [s]) => check_schema(s).map(|()| 0),
        (Call::CheckMapping, [s, t, f]) => check_mapping(s, t, f).map(|()| 0),
        (Call::CheckInstance, [s, i]) => check_instance(s, i).map(|()| 0),
        (Call::CheckPushed, [s, t, f, run, book, list]) => {
            check_pushed(s, t, f, run, book, list).map(|()| 0)
        }
        (Call::CheckRaw, [s, t, f, run, book, list]) => {
            check_raw(s, t, f, run, book, list).map(|()| 0)
        }
        _ => unreachable!("a call without a tray, lent its sheets"),
    }
}

/// The sheets that the reference gives for a change, before they are written to the
/// trays.
fn changed(case: &Case) -> Result<ChangedSheets, Refusal> {
    let number = |number: u64| usize::try_from(number).expect("64 bits");
    let numbers: Vec<usize> = case.numbers.iter().copied().map(number).collect();
    match (case.sheets.as_slice(), numbers.as_slice()) {
        ([s, t, f, run, row], &[length, table]) => add_row(s, t, f, run, length, table, row),
        ([s, t, f, run], &[length, table, row]) => withdraw_row(s, t, f, run, length, table, row),
        _ => unreachable!("a change, lent its sheets and numbers"),
    }
}

/// The reference's outcome of a case.
pub fn reference_outcome(case: &Case) -> Outcome {
    let (mut tray, mut run) = (case.tray_before(), case.run_before());
    let answer = match &mut run {
        Some(run) => {
            into_trays(changed(case), run, &mut tray).map(|(run, pushed)| 65_536 * run + pushed)
        }
        None if case.call.has_tray() => into_tray_or_none(result(case), &mut tray),
        None => number(case),
    };
    Outcome { answer, tray, run }
}

/// The byte length of a case's result, if the call is accepted with a tray that
/// holds it and there is one; of a change that of the pushed sheet, where the run's tray
/// holds the changed run.
pub fn result_length(case: &Case) -> Option<usize> {
    if case.call.is_change() {
        let (run, pushed) = changed_lengths(case)?;
        return (run <= case.sheets[3].len()).then_some(pushed);
    }
    result(case).ok().flatten().map(|sheet| sheet.len())
}

/// The byte lengths of the run and of the pushed sheet after a change, if it is accepted
/// with trays that hold them.
pub fn changed_lengths(case: &Case) -> Option<(usize, usize)> {
    changed(case).ok().map(|sheets| (sheets.run.len(), sheets.pushed.len()))
}
