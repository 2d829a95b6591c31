//! The header as it stands: every constant and every prototype is tried in C,
//! and the wrapper and the archive have what it declares.

mod common;

use common::{header_text, repository, run};
use header::arguments::export;
use header::constants::{
    constant, CHAIN_BYTES, INSTANCE_BYTES, MAPPING_BYTES, MATCHING_BYTES, PATH_BYTES, REFUSALS,
    STACKS,
};
use header::model::first_failure;
use header::program::program;
use header::read::Header;
use header::trials::trials;
use migration::Refusal;
use reference::plain::RANGES;
use sheet::kinds::KINDS;
use std::collections::BTreeSet;
use std::fs;
use vectors::call::Call;

fn header() -> Header {
    Header::read(&header_text()).expect("a header that can be read")
}

#[test]
fn every_call_and_every_constant_is_as_the_header_says() {
    let program = program(&header(), trials()).unwrap_or_else(|missing| panic!("{missing}"));
    match run("as-it-stands", &repository("include"), &program) {
        Ok(printed) => assert_eq!(printed, format!("{} trials as expected\n", trials().len())),
        Err(printed) => panic!("the header is not what the library does: {printed}"),
    }
    assert_eq!(first_failure(&header(), trials()), Ok(None));
}

#[test]
fn every_refusal_of_the_papers_is_met() {
    let met: Vec<u8> =
        trials().iter().filter_map(|trial| Some(trial.outcome.answer.err()?.number)).collect();
    for (name, number) in REFUSALS {
        assert!(met.contains(&number), "{name} is not met");
    }
}

/// "An instance sheet is at most 51,220 bytes."  A matching sheet has 9 bits for
/// each of 512 rows.  A path has 8 bits and 5 for each of at most 15 edges, a chain 8
/// bits and 10 for each of at most 255 steps.  A mapping has 4 bits for each of at most 16
/// nodes and 16 attributes, and for each of at most 32 edges 4 and those of a path's edges.
#[test]
fn the_sizes_are_those_of_the_papers() {
    let (path, chain) = ((8 + 15 * 5 + 7) / 8, (8 + 255 * 10 + 7) / 8);
    let mapping = (16 * 4 + 32 * (4 + 15 * 5) + 16 * 4) / 8;
    let [instance, matching] = [(INSTANCE_BYTES, 51_220), (MATCHING_BYTES, 512 * 9 / 8)];
    let [path, chain] = [(PATH_BYTES, path), (CHAIN_BYTES, chain)];
    for (name, bytes) in [instance, matching, path, chain, (MAPPING_BYTES, mapping)] {
        for trial in trials() {
            let places = 0..=trial.case.sheets.len();
            let sized = places.filter_map(|place| Some((place, trial.size(place)?)));
            for (place, size) in sized.filter(|(_, size)| size.constant == name) {
                assert_eq!(trial.length(place) as i64, bytes + size.more, "{}", trial.case.name);
            }
        }
    }
    let result = |name: &str| {
        let trial = trials().iter().find(|trial| trial.case.name == name).expect("a trial");
        (trial.case.tray, trial.outcome.answer.ok())
    };
    assert_eq!(result("the longest result"), (51_220, Some(51_120)));
    assert_eq!(result("the longest result, a tray of a byte less"), (51_119, None));
    assert_eq!(result("the longest result of a query"), (51_220, Some(51_120)));
    assert_eq!(result("the longest result of a query, a tray of a byte less"), (51_119, None));
    let both = 65_536 * 51_120 + 51_120;
    assert_eq!(result("the longest results of a change"), (51_220, Some(both)));
    let short = "the longest results of a change, a run tray of a byte less";
    assert_eq!(result(short), (51_120, None));
    let short = "the longest results of a change, a pushed tray of a byte less";
    assert_eq!(result(short), (51_119, None));
    assert_eq!(result("the longest path, whole"), (11, Some(11)));
    assert_eq!(result("the longest path, a tray of a byte less"), (10, None));
    assert_eq!(result("the longest chain"), (320, Some(279)));
    assert_eq!(result("the longest chain, a tray of 278"), (278, None));
    assert_eq!(result("no chain, a tray of 0"), (0, Some(0)));
    assert_eq!(result("the longest mapping"), (332, Some(332)));
    assert_eq!(result("the longest mapping, a tray of a byte less"), (331, None));
    assert_eq!(result("the longest mapping, whole"), (0, Some(0)));
}

#[test]
fn the_wrapper_has_the_same_words_and_sizes() {
    let header = header();
    for (_, number) in REFUSALS {
        let word = Refusal { number, place: 0 }.word();
        let name = format!("MIGRATION_{}", word.to_uppercase().replace(' ', "_"));
        assert_eq!(constant(number), Some(name));
    }
    assert_eq!(header.value(INSTANCE_BYTES), Some(migration::MOST_INSTANCE_BYTES as u64));
    assert_eq!(header.value(MATCHING_BYTES), Some(migration::MOST_MATCHING_BYTES as u64));
    assert_eq!(header.value(PATH_BYTES), Some(migration::MOST_PATH_BYTES as u64));
    assert_eq!(header.value(CHAIN_BYTES), Some(migration::MOST_CHAIN_BYTES as u64));
    assert_eq!(header.value(MAPPING_BYTES), Some(migration::MOST_MAPPING_BYTES as u64));
    for (name, bytes) in STACKS {
        assert_eq!(header.value(name), Some(bytes as u64), "{name}");
        assert_eq!(bytes % 1024, 0, "{name}");
    }
}

/// A line of the header's kinds: the tool's name and unit, the reference's range.
fn kind_line(number: usize) -> String {
    let (smallest, largest) = RANGES[number].clone().into_inner();
    let unit = match KINDS[number].unit {
        "" => String::new(),
        unit => format!(" in {unit}"),
    };
    format!("{number} {}{unit} {smallest} to {largest}", KINDS[number].name)
}

/// Kinds 0 to 7 stand on the left, 8 to 15 on the right.
#[test]
fn the_kinds_have_their_names_units_and_ranges() {
    let text = header_text();
    let lines = text.lines().skip_while(|line| !line.starts_with(" * The kinds of attributes"));
    let lines = lines.skip(1).take_while(|line| line.starts_with(" *  "));
    let lines = lines.map(|line| line.split_whitespace().skip(1).collect::<Vec<_>>().join(" "));
    let kinds = (0..8).map(|left| format!("{} {}", kind_line(left), kind_line(left + 8)));
    assert_eq!(lines.collect::<Vec<_>>(), kinds.collect::<Vec<_>>());
}

/// A function's name, and the type and the name of each parameter, as in C.
type Signature = (String, Vec<(String, String)>);

/// The functions of the wrapper's `extern "C"` block.
fn declared_in_the_wrapper() -> Vec<Signature> {
    let text = fs::read_to_string(repository("rust/migration/src/ffi.rs")).expect("the wrapper");
    let (_, block) = text.split_once("extern \"C\" {").expect("the calls of the library");
    let (block, _) = block.split_once("\n}").expect("the end of the calls");
    let signature = |function: &str| {
        let (name, rest) = function.split_once('(').expect("a function with parameters");
        let (parameters, gives) = rest.split_once(')').expect("the end of the parameters");
        assert!(gives.starts_with(" -> u64;"), "{name} gives {gives}");
        let parameters = parameters.split(',').map(str::trim).filter(|p| !p.is_empty());
        (name.to_string(), parameters.map(parameter).collect())
    };
    block.split("fn ").skip(1).map(signature).collect()
}

/// The C type and the name of `NAME: TYPE`.
fn parameter(text: &str) -> (String, String) {
    let (name, kind) = text.split_once(": ").expect("a name and a type");
    let kind = match kind {
        "*const u8" => "const uint8_t *",
        "*mut u8" => "uint8_t *",
        "usize" => "size_t",
        "u64" => "uint64_t",
        other => other,
    };
    (kind.to_string(), name.to_string())
}

#[test]
fn the_wrapper_declares_the_same_functions() {
    let mut of_header: Vec<Signature> = Vec::new();
    for function in header().prototypes {
        let parameters = function.parameters.into_iter().map(|p| (p.kind, p.name.text));
        of_header.push((function.name.text, parameters.collect()));
    }
    assert_eq!(declared_in_the_wrapper(), of_header);
}

/// The names that an archive offers, as its first member lists them: how many
/// they are, as many numbers, and the names, each with a 0 after it.
fn offered(archive: &[u8]) -> Vec<String> {
    let member = archive.strip_prefix(b"!<arch>\n/ ").expect("an archive with a list of names");
    let list = &member[58..];
    let count = u32::from_be_bytes(list[..4].try_into().expect("four bytes")) as usize;
    let names = list[4 + 4 * count..].split(|&byte| byte == 0).take(count);
    names.map(|name| String::from_utf8_lossy(name).into_owned()).collect()
}

#[test]
fn the_archive_offers_the_same_functions() {
    let archive = fs::read(env!("MIGRATION_ARCHIVE")).expect("the archive");
    let offered: BTreeSet<String> = offered(&archive).into_iter().collect();
    let of_header: BTreeSet<String> =
        header().prototypes.into_iter().map(|f| f.name.text).collect();
    assert_eq!(offered, of_header);
    assert_eq!(of_header, Call::ALL.map(export).into());
}
