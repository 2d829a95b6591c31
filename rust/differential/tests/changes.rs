//! Changes of a run, in streams: a short run against the reference, and what the library
//! pushes against its own Sigma.  `cargo run --release -p differential -- changes 100000` is
//! a long one.

use differential::{agreed, changes, compare, library_outcome, make, Fault};
use migration::{check_instance, check_pushed, pushed_to_raw, raw_to_pushed, sigma};
use reference::plain::{Instance, Matching, Schema};
use vectors::answer::{reference_outcome, Outcome, FILLING};
use vectors::call::{Call, Case};
use vectors::changes::Streams;
use vectors::report::End;

#[test]
fn the_library_and_the_reference_agree_on_changes() {
    match compare(changes(7, 4000)) {
        Ok(report) => {
            print!("{report}");
            assert_eq!(report.total(), 4000);
            for call in Call::CHANGES {
                assert!(report.count(call, End::Accepted) > 500, "{}", call.name());
            }
        }
        Err(difference) => panic!("{difference}"),
    }
}

/// The first accepted change of a call with bytes behind both results.
fn accepted(call: Call) -> (Case, Outcome) {
    let outcome = |case: Case| (reference_outcome(&case), case);
    let mut outcomes = changes(1, 0).filter(|case| case.call == call).map(outcome);
    let roomy = |(outcome, case): &(Outcome, Case)| {
        let room = |(run, pushed)| case.sheets[3].len() > run && case.tray > pushed;
        outcome.lengths().is_some_and(room)
    };
    let (outcome, case) = outcomes.find(roomy).expect("an accepted change");
    (case, outcome)
}

/// A change's outcome with one bit of a tray or the answer altered, for each of some bits.
fn altered(right: &Outcome) -> Vec<Outcome> {
    let (run, pushed) = right.lengths().expect("an accepted change");
    let mut outcomes = Vec::new();
    // The first byte of each result, its last, and the first beyond it.
    for place in [0, run - 1, run] {
        let mut outcome = right.clone();
        outcome.run.as_mut().expect("the run's tray")[place] ^= 1;
        outcomes.push(outcome);
    }
    for place in [0, pushed - 1, pushed] {
        let mut outcome = right.clone();
        outcome.tray[place] ^= 0x80;
        outcomes.push(outcome);
    }
    let refused = Err(reference::Refusal { number: 16, place: 0 });
    for answer in [Ok(65_536 * run + pushed + 1), Ok(65_536 * (run + 1) + pushed), refused] {
        outcomes.push(Outcome { answer, ..right.clone() });
    }
    outcomes
}

/// Another byte of either tray, within the result or beyond it, or another answer, is a
/// difference; and so is a byte changed beside the trays.
#[test]
fn another_answer_or_another_tray_is_a_difference() {
    for call in Call::CHANGES {
        let (case, right) = accepted(call);
        let found = library_outcome(&case);
        assert_eq!(agreed(&case, right.clone(), found).expect("no difference"), right);
        let beside = Err(Fault::Changed("a byte beside a tray"));
        for other in altered(&right).into_iter().map(Ok).chain([beside]) {
            let difference = agreed(&case, right.clone(), other.clone());
            let difference = difference.expect_err("another outcome");
            assert_eq!((difference.case, difference.expected), (case.clone(), right.clone()));
            assert_eq!(difference.found, other);
        }
    }
}

/// A longer tray keeps its bytes beyond the result; a run that is cut is not changed alike.
#[test]
fn the_lengths_lent_are_those_the_library_has() {
    for call in Call::CHANGES {
        let (case, right) = accepted(call);
        let (run, pushed) = right.lengths().expect("an accepted change");
        let mut longer = case.clone();
        longer.tray += 1;
        let found = library_outcome(&longer).expect("no byte changed beside the trays");
        assert_eq!(found.lengths(), Some((run, pushed)));
        assert_eq!(found.tray[pushed..], vec![FILLING; longer.tray - pushed]);
        let mut cut = case.clone();
        cut.numbers[0] -= 1;
        assert_ne!(library_outcome(&cut), Ok(right));
    }
}

/// The run among the sheets is not lent: the library changes the tray alone.
#[test]
fn the_run_is_changed_in_its_tray_alone() {
    for call in Call::CHANGES {
        let (case, right) = accepted(call);
        let mut run = case.run_before().expect("a change");
        let mut tray = case.tray_before();
        let answer = make(&case, &mut run, &mut tray);
        assert_eq!(answer.ok(), right.answer.ok());
        assert_eq!((Some(run), tray), (right.run, right.tray));
    }
}

/// The list in which each row of an instance is its own partner.
fn each_to_itself(schema: &[u8], instance: &[u8]) -> Vec<u8> {
    let schema = Schema::accept(schema).expect("an accepted schema");
    let rows = Instance::accept(&schema, instance).expect("an accepted instance").rows;
    Matching { partners: rows.into_iter().map(|count| (0..count).collect()).collect() }.to_sheet()
}

/// Whether the changed run is matched with a book: the pushed sheet itself, whose rows are
/// their own partners, turned to the raw side and back.  Not where the book has more than 512
/// rows when it is pulled back.
fn is_matched([s, t, f]: [&Vec<u8>; 3], run: &[u8], pushed: &[u8]) -> bool {
    let list = each_to_itself(t, pushed);
    match check_pushed(s, t, f, run, pushed, &list) {
        Ok(()) => {
            let raw = pushed_to_raw(s, t, f, run, pushed, &list).expect("a matching");
            assert_eq!(raw_to_pushed(s, t, f, run, pushed, &raw), Ok(list));
            true
        }
        Err(refusal) => {
            assert_eq!((refusal.number, refusal.place), (15, 0));
            false
        }
    }
}

/// "After each accepted change the pushed sheet equals a fresh Sigma of the changed run, and
/// matchings are compared for the run as it then is": all by the library, in the trays as it
/// left them itself.
#[test]
fn the_pushed_sheet_is_sigma_of_the_changed_run() {
    let (mut accepted, mut refused, mut matched) = (0, 0, 0);
    for case in Streams::seeded(8).take(3000) {
        let mut run = case.run_before().expect("a change");
        let mut tray = case.tray_before();
        let Ok(answer) = make(&case, &mut run, &mut tray) else {
            assert_eq!((&run, tray), (&case.sheets[3], case.tray_before()));
            refused += 1;
            continue;
        };
        accepted += 1;
        let (run, pushed) = (&run[..answer / 65_536], &tray[..answer % 65_536]);
        let [s, t, f] = [0, 1, 2].map(|place| &case.sheets[place]);
        assert_eq!(check_instance(s, run), Ok(()), "{}", case.name);
        assert_eq!(sigma(s, t, f, run).as_deref(), Ok(pushed), "{}", case.name);
        matched += usize::from(is_matched([s, t, f], run, pushed));
    }
    println!("{accepted} accepted, {refused} refused; {matched} matched");
    assert!(accepted > 1000 && refused > 500 && matched > 1000);
}
