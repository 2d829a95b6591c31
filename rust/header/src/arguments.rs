//! What each parameter of a call is lent, by its name.

use crate::read::{Function, Parameter};
use vectors::call::Call;

/// The place of the tray; sheets have theirs from 1 on.
pub const TRAY: usize = 0;

/// The place of the run, which a change is lent in a tray.
pub const RUN: usize = 4;

/// What a parameter is lent.  A parameter of another sort is a variant here, a
/// field of `struct trial` in `program.c`, and a line in `model`.
#[derive(Debug, Clone, Copy, PartialEq, Eq, PartialOrd, Ord)]
pub enum Argument {
    /// The sheet at a place, or the tray.
    Bytes(usize),
    /// The length of the sheet at a place, or of the tray.
    Length(usize),
    /// A number, by its place among those that are lent, from 0.
    Number(usize),
}

/// The names of a call's sheets, by place.  The length of a sheet has the sheet's
/// name with `_len` after it.
fn sheets(call: Call) -> &'static [&'static str] {
    match call {
        Call::CheckSchema => &["s"],
        Call::CheckMapping => &["s", "t", "f"],
        Call::CheckInstance => &["s", "i"],
        Call::FirstPath => &["s", "p"],
        Call::PathChain => &["s", "p", "q"],
        Call::Delta => &["s", "t", "f", "j"],
        Call::Sigma | Call::Pi => &["s", "t", "f", "i"],
        Call::CheckPushed | Call::CheckRaw | Call::PushedToRaw | Call::RawToPushed => {
            &["s", "t", "f", "run", "book", "list"]
        }
        Call::Query => &["s1", "s2", "s3", "s4", "f", "g", "h", "run"],
        Call::AddRow => &["s", "t", "f", "run", "row"],
        Call::WithdrawRow => &["s", "t", "f", "run"],
        Call::Compose => &["s", "t", "u", "f", "g"],
    }
}

/// The names of a change's numbers.
const NUMBERS: [&str; 3] = ["run_length", "table", "row"];

/// The name of an export.
pub fn export(call: Call) -> String {
    format!("migration_{}", call.name())
}

impl Argument {
    /// What an export is lent, in its order: each sheet and its length, by place, of a
    /// change its numbers after the run; then the tray and its length.
    pub fn all(call: Call) -> Vec<Argument> {
        let tray = call.has_tray().then_some(TRAY);
        let places = (1..=sheets(call).len()).chain(tray);
        let mut all: Vec<Argument> =
            places.flat_map(|place| [Argument::Bytes(place), Argument::Length(place)]).collect();
        let numbers = (0..call.numbers()).map(Argument::Number);
        let behind_run = if call.is_change() { 2 * RUN } else { 0 };
        all.splice(behind_run..behind_run, numbers);
        all
    }

    /// The name of its parameter.
    pub fn name(self, call: Call) -> String {
        let tray = if call.is_change() { "pushed" } else { "tray" };
        let of = |place: usize| if place == TRAY { tray } else { sheets(call)[place - 1] };
        match self {
            Argument::Bytes(place) => of(place).to_string(),
            Argument::Length(place) => format!("{}_len", of(place)),
            Argument::Number(number) => NUMBERS[number].to_string(),
        }
    }

    /// The C type of its parameter.
    pub fn kind(self, call: Call) -> &'static str {
        match self {
            Argument::Bytes(TRAY) => "uint8_t *",
            Argument::Bytes(RUN) if call.is_change() => "uint8_t *",
            Argument::Bytes(_) => "const uint8_t *",
            Argument::Length(_) => "size_t",
            Argument::Number(_) => "uint64_t",
        }
    }

    /// The argument in the C program.
    pub fn text(self) -> String {
        match self {
            Argument::Bytes(place) => format!("bytes(trial, {place})"),
            Argument::Length(place) => format!("trial->lent[{place}].length"),
            Argument::Number(number) => format!("trial->numbers[{number}]"),
        }
    }
}

/// What the parameters of a prototype are lent, in its order.  Each has the type
/// that the export takes there and a name that the call has for that type, and
/// no two have one name.
pub fn of_prototype(call: Call, prototype: &Function) -> Result<Vec<Argument>, String> {
    let function = &prototype.name.text;
    let expected = Argument::all(call);
    let kinds = prototype.parameters.iter().map(|parameter| parameter.kind.as_str());
    let of_export = expected.iter().map(|argument| argument.kind(call));
    if prototype.gives != "uint64_t" || !kinds.eq(of_export) {
        return Err(format!("{function} has other types than the export"));
    }
    let mut rest = expected;
    let mut lent = |Parameter { kind, name }: &Parameter| {
        let named =
            |argument: &Argument| argument.name(call) == name.text && argument.kind(call) == kind;
        let found = rest.iter().position(named);
        let found = found.ok_or(format!("{function} has a parameter {kind} {}", name.text))?;
        Ok(rest.swap_remove(found))
    };
    prototype.parameters.iter().map(&mut lent).collect()
}
