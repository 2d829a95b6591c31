//! A mistake in the header is found: by the program, or before it is made.

mod common;

use common::{header_text, run_with};
use header::arguments::{export, Argument};
use header::changes::{
    equal_numbers, exchanged_functions, exchanged_numbers, exchanged_parameters, other_numbers,
    Change,
};
use header::model::{answers_alike, first_failure, Failure};
use header::program::program;
use header::read::Header;
use header::trials::trials;
use vectors::call::Call;

fn read(text: &str) -> Header {
    Header::read(text).expect("a header that can be read")
}

/// Where a change is found, by the model.
fn found(change: &Change) -> Failure {
    let failure = first_failure(&read(&change.text), trials());
    let failure = failure.unwrap_or_else(|error| panic!("{}: {error}", change.name));
    failure.unwrap_or_else(|| panic!("{} is not found", change.name))
}

/// The change is found in C where the model finds it.
fn is_found_in_c(folder: &str, change: &Change) {
    let program = program(&read(&change.text), trials()).expect("a program");
    let printed = run_with(folder, &change.text, &program).expect_err(&change.name);
    let first = found(change).to_string();
    assert!(printed.starts_with(&first), "{}: {printed}", change.name);
}

/// Why no program is made for a header's text.
fn refused(text: &str) -> String {
    let made = Header::read(text).and_then(|header| program(&header, trials()));
    made.expect_err("a header that is not tried as a whole")
}

#[test]
fn a_wrong_number_is_found() {
    let text = header_text();
    let wrong = other_numbers(&text, &read(&text));
    assert_eq!(wrong.len(), 2 * 36);
    for (place, change) in wrong.iter().enumerate() {
        found(change);
        if place % 2 == 0 {
            is_found_in_c(&format!("number-{place}"), change);
        }
    }
    for change in exchanged_numbers(&text, &read(&text)) {
        found(&change);
    }
    // An exchange of these would change nothing; there are no others.
    let alike = [["MIGRATION_BENT_ROW", "MIGRATION_PATH_BYTES"]];
    assert_eq!(equal_numbers(&read(&text)), alike);
}

/// Pairs of parameters that only changes have: the trays, and the numbers.
const OF_CHANGES: [&str; 4] =
    ["run and pushed", "run_length and table", "run_length and row", "table and row"];

/// Each pair by the model; of each prototype the first pair, one in the middle and
/// the last in C, and those that only changes have.
#[test]
fn exchanged_parameters_are_found() {
    let text = header_text();
    for function in read(&text).prototypes {
        let name = &function.name.text;
        let exchanged = exchanged_parameters(&text, &function);
        assert_eq!(exchanged.is_empty(), name == &export(Call::CheckSchema));
        let in_c = [0, exchanged.len() / 2, exchanged.len().saturating_sub(1)];
        for (place, change) in exchanged.iter().enumerate() {
            found(change);
            let of_change = OF_CHANGES.iter().any(|pair| change.name.ends_with(pair));
            if in_c.contains(&place) || of_change {
                is_found_in_c(&format!("{name}-{place}"), change);
            }
        }
    }
}

/// The pairs of calls that have as many parameters, of the same types.
fn typed_alike() -> Vec<(Call, Call)> {
    let alike = |one: Call, other: Call| Argument::all(one) == Argument::all(other);
    let others = |one: Call| Call::ALL.into_iter().filter(move |&other| one != other);
    let pairs = Call::ALL.into_iter().flat_map(|one| others(one).map(move |other| (one, other)));
    pairs.filter(|&(one, other)| alike(one, other)).collect()
}

#[test]
fn exchanged_functions_are_found() {
    let text = header_text();
    for change in exchanged_functions(&text, &read(&text)) {
        refused(&change.text);
    }
    for (call, other) in typed_alike() {
        assert!(!answers_alike(trials(), call, other), "{} for {}", other.name(), call.name());
    }
}

/// A name in the header that leads to another function of the same types.
#[test]
fn a_name_that_leads_to_another_function_is_found() {
    let text = header_text();
    let program = program(&read(&text), trials()).expect("a program");
    for (call, other) in typed_alike().into_iter().filter(|(call, other)| call < other) {
        let (name, other) = (export(call), export(other));
        let text = format!("{text}#define {name} {other}\n");
        let printed = run_with(&format!("{other}-for-{name}"), &text, &program);
        let printed = printed.expect_err("another function that answers alike");
        assert!(printed.contains(&format!(", {name}, ")), "{other} for {name}: {printed}");
    }
}

#[test]
fn an_answer_taken_apart_wrongly_is_found() {
    let text = header_text();
    let program = program(&read(&text), trials()).expect("a program");
    let changes = [
        ("answer >> 32 == 0", "answer >> 31 == 0"),
        ("answer >> 8 & 0xff", "answer >> 8 & 0x1f"),
        ("(answer & 0xff)", "(answer & 0x0f)"),
        ("answer >> 16", "answer >> 15"),
        ("answer & 0xffff", "answer & 0x7fff"),
    ];
    for (place, (before, after)) in changes.into_iter().enumerate() {
        assert_eq!(text.matches(before).count(), 1, "{before}");
        let printed = run_with(&format!("inline-{place}"), &text.replace(before, after), &program);
        assert!(printed.expect_err(after).contains("expected"));
    }
}

#[test]
fn what_is_not_tried_is_found() {
    let text = header_text();
    let check = |before: &str, after: &str, why: &str| {
        assert!(text.contains(before), "{before}");
        assert_eq!(refused(&text.replacen(before, after, 1)), why);
    };
    check("= 19 ", "= 19, MIGRATION_MORE = 20 ", "MIGRATION_MORE is not tried");
    check("MIGRATION_CUT = 1, ", "", "the header lacks MIGRATION_CUT");
    check("MIGRATION_TAIL", "MIGRATION_CUT", "MIGRATION_CUT stands twice");
    check(
        "\nenum",
        "\n#define MORE 18\nenum",
        "the header has #define MORE 18, which is not tried",
    );
    check("migration_pi(", "migration_join(", "migration_join is not tried");
    check("int migration_accepted(", "int migration_taken(", "migration_taken is not tried");
    let schema = "uint64_t migration_check_schema(const uint8_t *s, size_t s_len);";
    check(schema, "", "the header lacks migration_check_schema");
    check(schema, &schema.repeat(2), "migration_check_schema stands twice");
}

#[test]
fn other_types_and_names_are_found() {
    let text = header_text();
    let right = "uint64_t migration_check_schema(const uint8_t *s, size_t s_len)";
    let check = |before: &str, after: &str, why: &str| {
        assert!(text.contains(right) && right.contains(before), "{before}");
        let why = format!("migration_check_schema has {why}");
        assert_eq!(refused(&text.replace(right, &right.replace(before, after))), why);
    };
    let types = "other types than the export";
    check("const uint8_t *s", "uint8_t *s", types);
    check("const uint8_t *s", "const uint32_t *s", types);
    check("size_t", "uint32_t", types);
    check("uint64_t", "uint32_t", types);
    check(", size_t s_len", "", types);
    check("const uint8_t *s, size_t s_len", "size_t s_len, const uint8_t *s", types);
    check("*s", "*t", "a parameter const uint8_t * t");
    check("s_len", "s", "a parameter size_t s");
}
