//! What the C program finds, with the reference in the library's place.

use crate::arguments::{export, of_prototype, Argument, RUN, TRAY};
use crate::constants::{compared, constant};
use crate::read::Header;
use crate::trials::Trial;
use std::fmt;
use vectors::answer::{reference_outcome, Outcome, FILLING};
use vectors::call::{Call, Case};

/// What the program finds first.
#[derive(Debug, Clone, Copy, PartialEq, Eq)]
pub enum Failure {
    /// A constant has another number than the wrapper's.
    Constant(&'static str),
    /// The trial at a place fails.
    Trial(usize),
}

/// What the program prints begins like this.
impl fmt::Display for Failure {
    fn fmt(&self, out: &mut fmt::Formatter<'_>) -> fmt::Result {
        match self {
            Failure::Constant(name) => write!(out, "{name}: "),
            Failure::Trial(place) => write!(out, "trial {place}, "),
        }
    }
}

/// What fails first, if anything does.
pub fn first_failure(header: &Header, trials: &[Trial]) -> Result<Option<Failure>, String> {
    let differs = |(name, bytes): &(&str, usize)| header.value(name) != Some(*bytes as u64);
    if let Some((name, _)) = compared().find(differs) {
        return Ok(Some(Failure::Constant(name)));
    }
    for (place, trial) in trials.iter().enumerate() {
        if !passes(header, trial)? {
            return Ok(Some(Failure::Trial(place)));
        }
    }
    Ok(None)
}

/// Whether the answer and the trays are as expected when the call is made as the
/// header declares it.
fn passes(header: &Header, trial: &Trial) -> Result<bool, String> {
    let call = trial.case.call;
    let name = export(call);
    let prototype = header.prototype(&name).ok_or(format!("the header lacks {name}"))?;
    let arguments = of_prototype(call, prototype)?;
    let lent = lent(header, trial, &arguments)?;
    let same = lent == trial.case;
    let outcome = if same { trial.outcome.clone() } else { reference_outcome(&lent) };
    if outcome.number() != expected(header, &trial.outcome)? {
        return Ok(false);
    }
    let found = rooms_after(header, trial, &arguments, &outcome)?;
    let expected = rooms_after(header, trial, &Argument::all(call), &trial.outcome)?;
    Ok(same_room(&found[0], &expected[0]) && same_room(&found[1], &expected[1]))
}

/// Whether another call, which takes as many sheets and a tray or none, gives the
/// answers of a call to each of its trials.
pub fn answers_alike(trials: &[Trial], call: Call, other: Call) -> bool {
    let mut of_call = trials.iter().filter(|trial| trial.case.call == call);
    let made = |trial: &Trial| reference_outcome(&Case { call: other, ..trial.case.clone() });
    of_call.all(|trial| made(trial) == trial.outcome)
}

/// What the export is lent where the header has its arguments in this order.
fn lent(header: &Header, trial: &Trial, arguments: &[Argument]) -> Result<Case, String> {
    use Argument::{Bytes, Length, Number};
    let mut case = trial.case.clone();
    for (taken, lent) in Argument::all(trial.case.call).into_iter().zip(arguments) {
        match (taken, *lent) {
            (Bytes(TRAY), Bytes(of)) => case.standing = room(header, trial, of)?,
            (Bytes(place), Bytes(of)) => case.sheets[place - 1] = room(header, trial, of)?,
            (Length(TRAY), Length(by)) => {
                case.tray = length(header, trial, by)?;
                case.standing.truncate(case.tray);
            }
            (Length(place), Length(by)) => {
                case.sheets[place - 1].resize(length(header, trial, by)?, FILLING);
            }
            (Number(number), Number(by)) => case.numbers[number] = trial.case.numbers[by],
            _ => return Err(format!("{taken:?} is lent as {lent:?}")),
        }
    }
    Ok(case)
}

/// The bytes of the room at a place before the call, up to those that are filling: the
/// tray's has no others.
fn room(header: &Header, trial: &Trial, place: usize) -> Result<Vec<u8>, String> {
    let mut room = trial.sheet(place).to_vec();
    if place != TRAY {
        room.resize(room.len().max(length(header, trial, place)?), 0);
    }
    Ok(room)
}

/// The rooms of the tray and of the run after a call that was lent these arguments.  Only a
/// change has the run's for a tray.
fn rooms_after(
    header: &Header,
    trial: &Trial,
    arguments: &[Argument],
    outcome: &Outcome,
) -> Result<[Vec<u8>; 2], String> {
    let call = trial.case.call;
    let mut rooms = [room(header, trial, TRAY)?, vec![]];
    if call.is_change() {
        rooms[1] = room(header, trial, RUN)?;
    }
    for (taken, lent) in Argument::all(call).into_iter().zip(arguments) {
        let written = match taken {
            Argument::Bytes(TRAY) => &outcome.tray,
            Argument::Bytes(RUN) if call.is_change() => outcome.run.as_ref().expect("a change"),
            _ => continue,
        };
        let room = &mut rooms[usize::from(*lent == Argument::Bytes(RUN))];
        room.resize(room.len().max(written.len()), FILLING);
        room[..written.len()].copy_from_slice(written);
    }
    Ok(rooms)
}

/// The length of the sheet at a place, or of the tray, as the program has it.
fn length(header: &Header, trial: &Trial, place: usize) -> Result<usize, String> {
    let Some(size) = trial.size(place) else { return Ok(trial.length(place)) };
    let value = header.value(size.constant).and_then(|value| value.checked_add_signed(size.more));
    let length = value.and_then(|value| usize::try_from(value).ok());
    length.ok_or(format!("{} is no length", size.constant))
}

/// The answer that the program expects, made with the header's constants.
fn expected(header: &Header, outcome: &Outcome) -> Result<u64, String> {
    let Err(refusal) = outcome.answer else { return Ok(outcome.number()) };
    let name = constant(refusal.number).ok_or("a number without a constant")?;
    let number = header.value(&name).ok_or(format!("the header lacks {name}"))?;
    Ok((1 << 32) + 256 * number + u64::from(refusal.place))
}

/// Whether two trays are the same, with the bytes beside them.
fn same_room(one: &[u8], other: &[u8]) -> bool {
    let byte = |tray: &[u8], place: usize| tray.get(place).copied().unwrap_or(FILLING);
    (0..one.len().max(other.len())).all(|place| byte(one, place) == byte(other, place))
}
