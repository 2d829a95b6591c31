//! The vector file and what is expected of it.
//!
//! The vector file is records, one after the other, until it ends.  A record is
//!
//! - the call, one byte: its place in [`Call::ALL`] from 0;
//! - eight sheets, each after its 16-bit byte length, most significant byte first;
//!   those that the call does not take are empty.  Of a change the fourth is the run's
//!   whole tray, the fifth an added row, and the last three are numbers of 8 bytes, most
//!   significant first: the run's byte length, the table, a withdrawn row;
//! - the tray's byte length, 16 bits, most significant byte first; 0 for a call
//!   without a tray.
//!
//! Before the call every byte of the tray is 165.  For each record the expected
//! text has one line: the answer as the number of the C call (`Outcome::number`)
//! and the [`checksum`] of the whole tray afterwards, of a change also that of the run's
//! whole tray, all in decimal, with one space between them.

use crate::answer::{reference_outcome, Outcome};
use crate::call::{Call, Case};
use crate::change_limits::change_limits;
use crate::change_refusals;
use crate::changes::Streams;
use crate::composition_refusals;
use crate::compositions::compositions;
use crate::digs::fruitful_dig;
use crate::limits::limits;
use crate::papers::papers;
use crate::random::Random;
use crate::stream::{for_each_refusal, Chance};

/// The sheets of every record.
pub const SHEETS: usize = 8;

/// Where the numbers of a change stand among the sheets, from 0.
const NUMBERS: usize = 5;

/// The cases of the vector file.
pub fn stored_cases() -> Vec<Case> {
    let mut random = Random::seeded(1);
    let fixed = papers().into_iter().chain(limits());
    let twice = [for_each_refusal(&mut random), for_each_refusal(&mut random)];
    let made = twice.into_iter().flatten().map(|expected| expected.case);
    let short = |case: &Case| record(case).len() <= MOST_RECORD_BY_CHANCE;
    let chance = Chance::seeded(2).filter(|case| case.call != Call::Compose);
    let chance = chance.filter(short).take(CASES_BY_CHANCE);
    let query = |number: usize| {
        let dig = fruitful_dig(&mut random, 2 + number % 5);
        dig.case(format!("query {number}")).with_tray(400 + number)
    };
    let queries = (0..).map(query).filter(short).take(QUERIES_BY_CHANCE);
    let others = fixed.chain(made).chain(chance).chain(queries);
    others.chain(stored_changes()).chain(stored_compositions()).collect()
}

/// Those that change a run: the fixed ones, those made for a refusal each, and streams,
/// whose pushed trays are untouched before each change.
fn stored_changes() -> Vec<Case> {
    let made = change_refusals::for_each_refusal(&mut Random::seeded(5)).into_iter();
    let made = made.map(|expected| expected.case);
    let untouched = |case: Case| Case { standing: vec![], ..case };
    let short = |case: &Case| record(case).len() <= MOST_CHANGE_BY_CHANCE;
    let streams = Streams::seeded(6).map(untouched).filter(short).take(CHANGES_BY_CHANCE);
    change_limits().into_iter().chain(made).chain(streams).collect()
}

/// Those of the composing call: the fixed ones, those made for a refusal each, and others.
fn stored_compositions() -> Vec<Case> {
    let mut random = Random::seeded(7);
    let twice = [(); 2].map(|()| composition_refusals::for_each_refusal(&mut random));
    let made = twice.into_iter().flatten().map(|expected| expected.case);
    let chance = Chance::seeded(8).filter(|case| case.call == Call::Compose);
    compositions().into_iter().chain(made).chain(chance.take(COMPOSITIONS_BY_CHANCE)).collect()
}

/// So many of the stored cases are made by chance.
const CASES_BY_CHANCE: usize = 3014;

/// So many more are accepted queries, with links and values in their results.
const QUERIES_BY_CHANCE: usize = 120;

/// None of these is longer than so many bytes.
const MOST_RECORD_BY_CHANCE: usize = 1004;

/// So many more are changes of a run by chance.
const CHANGES_BY_CHANCE: usize = 400;

/// None of these is longer than so many bytes.
const MOST_CHANGE_BY_CHANCE: usize = 400;

/// So many more are of the composing call.
const COMPOSITIONS_BY_CHANCE: usize = 240;

/// A case as a record.
pub fn record(case: &Case) -> Vec<u8> {
    let call = Call::ALL.iter().position(|&call| call == case.call).expect("a call");
    let mut bytes = vec![call as u8];
    for place in 0..SHEETS {
        let sheet = sheet(case, place);
        bytes.extend(length(sheet.len()));
        bytes.extend(sheet);
    }
    assert!(case.standing.is_empty(), "a record has no bytes for the tray");
    bytes.extend(length(case.tray));
    bytes
}

/// What stands at a place of a record, from 0.
pub fn sheet(case: &Case, place: usize) -> Vec<u8> {
    let number = place.checked_sub(NUMBERS).and_then(|place| case.numbers.get(place));
    match number {
        Some(number) => number.to_be_bytes().to_vec(),
        None => case.sheets.get(place).cloned().unwrap_or_default(),
    }
}

fn length(length: usize) -> [u8; 2] {
    u16::try_from(length).expect("a 16-bit length").to_be_bytes()
}

/// The line that is expected for an outcome.
pub fn line(outcome: &Outcome) -> String {
    let run = outcome.run.as_ref().map_or(String::new(), |run| format!(" {}", checksum(run)));
    format!("{} {}{run}\n", outcome.number(), checksum(&outcome.tray))
}

/// From 0 on, for each byte of the tray: 257 times the sum before, plus the byte
/// and 1, modulo the prime 4294967291.
pub fn checksum(tray: &[u8]) -> u64 {
    tray.iter().fold(0, |sum, &byte| (257 * sum + u64::from(byte) + 1) % 4_294_967_291)
}

/// The vector file and the expected text.
pub fn files() -> (Vec<u8>, String) {
    let cases = stored_cases();
    let vectors = cases.iter().flat_map(record).collect();
    let expected = cases.iter().map(|case| line(&reference_outcome(case))).collect();
    (vectors, expected)
}
