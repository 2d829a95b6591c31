//! The C program that tries a header.

use crate::arguments::{export, of_prototype, Argument, RUN};
use crate::constants::{compared, constant};
use crate::read::{Header, Word};
use crate::trials::Trial;
use std::collections::BTreeSet;
use vectors::answer::Outcome;
use vectors::call::Call;

/// What is the same for every header.
const TEMPLATE: &str = include_str!("program.c");

/// The program for a header and trials, or what of the header is not tried.
pub fn program(header: &Header, trials: &[Trial]) -> Result<String, String> {
    everything_is_tried(header, trials)?;
    let mut calls = String::new();
    for call in Call::ALL {
        calls += &call_text(header, call)?;
    }
    let table = trials.iter().map(trial_text).collect::<Result<String, _>>()?;
    let number = |(name, bytes): (&str, usize)| format!("    {{\"{name}\", {name}, {bytes}}},\n");
    let numbers: String = compared().map(number).collect();
    let program = TEMPLATE.replace("/* CALLS */\n", &calls).replace("/* TRIALS */\n", &table);
    Ok(program.replace("/* NUMBERS */\n", &numbers))
}

/// Each function and each constant of the header is tried, and each that is tried
/// is there.
fn everything_is_tried(header: &Header, trials: &[Trial]) -> Result<(), String> {
    let exports = trials.iter().map(|trial| export(trial.case.call)).collect();
    same_names(header.prototypes.iter().map(|function| &function.name), &exports)?;
    same_names(header.constants.iter().map(|constant| &constant.name), &constants_of(trials))?;
    let mut inlines = header.inlines.iter().map(|function| &function.name.text);
    match inlines.find(|name| !TEMPLATE.contains(&format!("{name}("))) {
        None => Ok(()),
        Some(name) => Err(format!("{name} is not tried")),
    }
}

/// The header has each name that is tried, once, and no other.
fn same_names<'a>(
    of_header: impl Iterator<Item = &'a Word>,
    tried: &BTreeSet<String>,
) -> Result<(), String> {
    let mut rest = tried.clone();
    for Word { text, .. } in of_header {
        if !rest.remove(text) {
            let why = if tried.contains(text) { "stands twice" } else { "is not tried" };
            return Err(format!("{text} {why}"));
        }
    }
    rest.first().map_or(Ok(()), |name| Err(format!("the header lacks {name}")))
}

/// The constants that the program names.
fn constants_of(trials: &[Trial]) -> BTreeSet<String> {
    let compared = compared().map(|(name, _)| name.to_string());
    let refusals = trials.iter().filter_map(|trial| constant(trial.outcome.answer.err()?.number));
    let sizes = trials.iter().flat_map(|trial| trial.constants()).map(str::to_string);
    compared.chain(refusals).chain(sizes).collect()
}

/// The function that makes a call of a trial.
fn call_text(header: &Header, call: Call) -> Result<String, String> {
    let (name, export) = (call.name(), export(call));
    let prototype = header.prototype(&export).ok_or(format!("the header lacks {export}"))?;
    let arguments = of_prototype(call, prototype)?;
    let arguments: Vec<String> = arguments.into_iter().map(Argument::text).collect();
    let arguments = arguments.join(", ");
    Ok(format!(
        "static uint64_t make_{name}(const struct trial *trial) {{\n    return {export}({arguments});\n}}\n\n"
    ))
}

/// A trial as it stands in the program's list.
fn trial_text(trial: &Trial) -> Result<String, String> {
    let (call, name) = (trial.case.call, &trial.case.name);
    let places = 0..=trial.case.sheets.len();
    let lent: Vec<String> = places.map(|place| lent_text(trial, place)).collect();
    let lent = lent.join(", ");
    let expected = expected_text(&trial.outcome)?;
    let after = match (trial.outcome.lengths(), trial.outcome.answer) {
        (Some((_, pushed)), _) => &trial.outcome.tray[..pushed],
        (None, Ok(length)) if call.has_tray() => &trial.outcome.tray[..length],
        _ => &[],
    };
    let after = bytes_text(after, &after.len().to_string());
    let (export, make, change) = (export(call), call.name(), change_text(trial));
    Ok(format!(
        "    {{.call = \"{export}\", .name = {name:?}, .make = make_{make}, .lent = {{{lent}}}, \
         {change}{expected}, .after = {after}}},\n"
    ))
}

/// What is expected of an answer.
fn expected_text(outcome: &Outcome) -> Result<String, String> {
    Ok(match (outcome.lengths(), outcome.answer) {
        (Some((run, pushed)), _) => format!("CHANGED({run}, {pushed})"),
        (None, Ok(number)) => format!("ACCEPTED({number})"),
        (None, Err(refusal)) => {
            let constant = constant(refusal.number).ok_or("a number without a constant")?;
            format!("REFUSED({constant}, {})", refusal.place)
        }
    })
}

/// Of a change the numbers that it is lent, and the run's whole tray afterwards.
fn change_text(trial: &Trial) -> String {
    let Some(run) = &trial.outcome.run else { return String::new() };
    let numbers: Vec<String> = trial.case.numbers.iter().map(|n| format!("{n}u")).collect();
    let after = bytes_text(run, &length_text(trial, RUN));
    format!(".changes = 1, .numbers = {{{}}}, .run_after = {after}, ", numbers.join(", "))
}

/// What a trial lends at a place.
fn lent_text(trial: &Trial, place: usize) -> String {
    bytes_text(trial.sheet(place), &length_text(trial, place))
}

/// The length of what a trial lends at a place.
fn length_text(trial: &Trial, place: usize) -> String {
    match trial.size(place) {
        Some(size) => format!("{} {:+}", size.constant, size.more),
        None => trial.length(place).to_string(),
    }
}

/// Bytes up to the last that is not 0, how many these are, and the length.
fn bytes_text(bytes: &[u8], length: &str) -> String {
    let count = bytes.iter().rposition(|&byte| byte != 0).map_or(0, |last| last + 1);
    let written: String = bytes[..count].iter().map(|byte| format!("\\x{byte:02x}")).collect();
    format!("{{\"{written}\", {count}, {length}}}")
}
