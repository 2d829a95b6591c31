//! A short run: `cargo run --release -p differential -- 200000` is a long one.

use differential::pipe::{read_in_turn, Feed, LIMIT};
use differential::program::{Program, PROGRAMS};
use differential::{cases, compare, library_outcome};
use std::process::Command;
use std::time::Duration;
use vectors::answer::{reference_outcome, FILLING};
use vectors::call::Call;

#[test]
fn the_library_and_the_reference_agree() {
    match compare(cases(7, 6000)) {
        Ok(report) => {
            print!("{report}");
            assert_eq!(report.total(), 6000);
        }
        Err(difference) => panic!("{difference}"),
    }
}

#[test]
fn another_answer_or_another_tray_is_a_difference() {
    let mut case = cases(1, 0).find(|case| case.call == Call::Sigma).expect("a case of sigma");
    let right = reference_outcome(&case);
    assert_eq!(library_outcome(&case), Ok(right.clone()));
    let length = right.answer.expect("case 1 is accepted");
    case.tray += 1;
    let longer = library_outcome(&case).expect("no byte changed beside the tray");
    assert_ne!(longer, right);
    assert_eq!(longer.answer, Ok(length));
    assert_eq!(longer.tray[length..], [FILLING]);
    case.sheets[3].pop();
    assert_ne!(library_outcome(&case), Ok(longer));
}

/// A program that prints something else is found out.
#[test]
fn another_text_is_a_difference() {
    for program in PROGRAMS {
        let inputs = program.inputs(1, 4).skip(3);
        let other = program.compare_texts(|| Command::new("cat"), inputs);
        let other = other.expect("a program that runs").expect_err("cat prints its input");
        assert_ne!(other.expected.printed, other.found.printed);
        let none = || Command::new("/no/such/program");
        assert!(program.compare_texts(none, [vec![]].into_iter()).is_err());
        assert!(program.compare_pairs(none, program.pairs(1, 1), LIMIT).is_err());
    }
}

/// A program that waits for the end of the input is found out, and killed.
#[test]
fn reading_on_is_a_difference() {
    for program in PROGRAMS {
        let (cat, limit) = (|| Command::new("cat"), Duration::from_millis(300));
        let other = program.compare_pairs(cat, program.pairs(1, 1), limit);
        let other = other.expect("a program that runs").expect_err("cat reads on");
        assert_eq!(other.found.printed, [None]);
    }
}

/// Inputs give tables and refusals, and nothing else.
#[test]
fn inputs_end_in_every_way() {
    for program in PROGRAMS {
        let texts: Vec<Vec<u8>> = program.inputs(1, 500).map(|i| (program.text)(&i)).collect();
        let begin = |word: &str| texts.iter().filter(|t| t.starts_with(word.as_bytes())).count();
        assert_eq!(begin("tables") + begin("refused"), 500, "{}", program.name);
        assert!(begin("tables") > 50 && begin("refused") > 50, "{}", program.name);
    }
}

/// A program that prints the right text, of as many bytes as it gets, is found out
/// by what it leaves.
#[test]
fn bytes_taken_from_the_next_reader_are_a_difference() {
    for program in PROGRAMS {
        take_bytes_after(program);
    }
}

fn take_bytes_after(program: Program) {
    let (inputs, after) = program.pairs(1, 2).last().expect("a pair with bytes after it");
    let text = String::from_utf8((program.text)(&inputs[0])).expect("a text");
    let greedy = || {
        let mut shell = Command::new("sh");
        shell.args(["-c", "dd bs=64k count=1 status=none >/dev/null; printf %s \"$0\"", &text]);
        shell
    };
    let input = [&inputs[0][..], &after].concat();
    let other = program.compare_texts(greedy, [input].into_iter()).expect("a program that runs");
    let other = other.expect_err("dd takes what there is");
    assert_eq!(other.expected.printed, other.found.printed);
    assert_eq!((other.expected.left, other.found.left), (after, vec![]));
}

/// Bytes that come one by one are not found by one read.
#[test]
fn slow_bytes_come_in_several_reads() {
    let one_read = |slowly| {
        let mut shell = Command::new("sh");
        shell.args(["-c", "dd bs=4k count=1 status=none | wc -c"]);
        let feed = Feed { bytes: vec![0; 2000], slowly, open: false };
        let readings = read_in_turn(&feed, [shell], LIMIT).expect("a program that runs");
        let (text, _) = readings.printed[0].clone().expect("a program that ends");
        String::from_utf8(text).expect("a text").trim().parse::<usize>().expect("a number")
    };
    assert_eq!(one_read(false), 2000);
    assert!(one_read(true) < 2000);
}
