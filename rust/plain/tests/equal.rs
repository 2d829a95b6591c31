//! The plain version answers as the reference does.

use plain::{check_instance, sigma, Refusal};
use vectors::answer::{reference_outcome, Outcome, FILLING};
use vectors::call::{Call, Case};
use vectors::random::Random;
use vectors::stream::{fixed_and_refused, Chance};

fn outcome(case: &Case) -> Outcome {
    let mut tray = vec![FILLING; case.tray];
    let answer = match (case.call, case.sheets.as_slice()) {
        (Call::CheckInstance, [s, i]) => check_instance(s, i).map(|()| 0),
        (Call::Sigma, [s, t, f, i]) => sigma(s, t, f, i, &mut tray),
        _ => unreachable!("another call"),
    };
    let told = |Refusal { number, place }| reference::Refusal { number, place };
    Outcome { answer: answer.map_err(told), tray, run: None }
}

#[test]
fn the_plain_version_and_the_reference_agree() {
    let first = fixed_and_refused(&mut Random::seeded(3)).into_iter();
    let cases = first.chain(Chance::seeded(4).take(22_000));
    let mut tried = 0;
    for case in cases.filter(|case| matches!(case.call, Call::CheckInstance | Call::Sigma)) {
        assert_eq!(outcome(&case), reference_outcome(&case), "{case:?}");
        tried += 1;
    }
    assert!(tried > 3000, "{tried} cases");
}
