//! The files of the program `cases` are what the generator and the reference
//! give today.  `cargo run -p vectors -- ../crates/cases` writes them.

use std::fs;
use std::path::Path;
use vectors::answer::{reference_outcome, FILLING};
use vectors::build::hex;
use vectors::call::Call;
use vectors::record::{checksum, files, line, record, stored_cases, SHEETS};

fn stored(name: &str) -> Vec<u8> {
    let path = Path::new(env!("CARGO_MANIFEST_DIR")).join("../../crates/cases").join(name);
    fs::read(&path).unwrap_or_else(|error| panic!("{}: {error}", path.display()))
}

#[test]
fn the_stored_files_are_todays() {
    let (vectors, expected) = files();
    assert!(stored("stdin") == vectors, "crates/cases/stdin is not what the generator gives");
    assert!(
        stored("stdout") == expected.as_bytes(),
        "crates/cases/stdout is not what the reference answers"
    );
}

#[test]
fn the_files_are_small_and_many_cases() {
    let (vectors, expected) = (stored("stdin"), stored("stdout"));
    // The program reads no more.
    assert!(vectors.len() <= 655_360, "{} bytes", vectors.len());
    let lines = expected.iter().filter(|&&byte| byte == b'\n').count();
    assert!(lines > 7000, "{lines} cases");
}

/// The next two bytes as a number, and what follows them.
fn length(bytes: &[u8]) -> (usize, &[u8]) {
    (usize::from(bytes[0]) * 256 + usize::from(bytes[1]), &bytes[2..])
}

#[test]
fn the_records_are_read_back() {
    let vectors = stored("stdin");
    let mut rest = vectors.as_slice();
    for case in stored_cases() {
        assert_eq!(Call::ALL[usize::from(rest[0])], case.call);
        rest = &rest[1..];
        let mut lent = case.sheets.clone();
        if case.call.is_change() {
            lent.resize(5, vec![]);
            lent.extend(case.numbers.iter().map(|number| number.to_be_bytes().to_vec()));
        }
        lent.resize(SHEETS, vec![]);
        for sheet in lent {
            let (bytes, after) = length(rest);
            assert_eq!(after[..bytes], sheet);
            rest = &after[bytes..];
        }
        let (tray, after) = length(rest);
        assert_eq!(tray, case.tray);
        rest = after;
    }
    assert!(rest.is_empty());
}

#[test]
fn a_line_is_the_answer_and_the_checksums_of_the_trays() {
    let cases = stored_cases();
    let named = |name: &str| cases.iter().find(|case| case.name == name).expect("a case");
    let base = named("case 1: sigma");
    assert_eq!(record(base)[..10], [5, 0, 7, 0x18, 0x42, 0, 0x04, 0x84, 0x04, 0x84]);
    let result = vectors::base::base_sigma();
    assert_eq!(line(&reference_outcome(base)), format!("18 {}\n", checksum(&result)));
    let small = named("case 12: a tray of 17 bytes");
    let untouched = checksum(&[FILLING; 17]);
    assert_eq!(line(&reference_outcome(small)), format!("4294971392 {untouched}\n"));
    assert_eq!(line(&reference_outcome(named("case 10: 257 paths"))), "4294968833 0\n");
    // Of a change the run's tray is told too: the base example with a dent more, then the
    // bytes behind it as they were.
    let more = named("a dent more");
    let record = record(more);
    assert_eq!(record[..10], [13, 0, 7, 0x18, 0x42, 0, 0x04, 0x84, 0x04, 0x84]);
    let numbers = [0, 8, 0, 0, 0, 0, 0, 0, 0, 20, 0, 8, 0, 0, 0, 0, 0, 0, 0, 0, 0, 0, 0, 30];
    assert!(record.ends_with(&numbers));
    let (pushed, run) = (
        hex("01 00 20 08 00 00 01 00 00 02 BC 00 00 01 2C 00 00 01 F4 00 00 02 C1"),
        hex("00 C0 20 04 02 00 00 00 40 00 00 AF 00 00 00 4B 00 00 00 7D 00 00 00 B0 40"),
    );
    let trays = [[pushed, vec![FILLING; 7]].concat(), [run, vec![7; 4]].concat()];
    let [pushed, run] = trays.map(|tray| checksum(&tray));
    assert_eq!(line(&reference_outcome(more)), format!("1638423 {pushed} {run}\n"));
    let held = named("row 1 of table 1 withdrawn");
    let (tray, run) = (checksum(&[FILLING; 30]), checksum(&held.sheets[3]));
    assert_eq!(line(&reference_outcome(held)), format!("4294972160 {tray} {run}\n"));
    assert_eq!(checksum(&[]), 0);
    assert_eq!(checksum(&[0]), 1);
    assert_eq!(checksum(&[1, 0]), 2 * 257 + 1);
    assert_eq!(checksum(&[255, 255, 255, 255, 255]), 256 * (257u64.pow(5) - 1) / 256 % 4294967291);
}
