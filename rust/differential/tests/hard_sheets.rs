//! Pi on the sheets that are hardest for its search: the answers, in bounded
//! processor time.

use differential::library_outcome;
use differential::limit::{processor_time, within};
use std::time::Duration;
use vectors::answer::FILLING;
use vectors::hard::{hard_sheets, HardSheet};

/// So much time a call has on a machine with much other work, whatever the
/// processor time that it may take.
const AT_LEAST: Duration = Duration::from_secs(60);

/// Fails where the call takes more than it may, never ends, or answers wrongly.
fn try_sheet(sheet: HardSheet) -> Duration {
    let HardSheet { case, answer, most } = sheet;
    let name = case.name.clone();
    let done = within(AT_LEAST + 5 * most, move || processor_time(|| library_outcome(&case)));
    let (outcome, spent) = done.unwrap_or_else(|late| panic!("pi ({name}): {late}"));
    let outcome = outcome.unwrap_or_else(|fault| panic!("pi ({name}): {fault}"));
    match answer {
        Ok(sheet) => {
            assert_eq!(outcome.answer, Ok(sheet.len()), "pi ({name})");
            let (result, rest) = outcome.tray.split_at(sheet.len());
            assert!(result == sheet, "pi ({name}): another result");
            assert!(
                rest.iter().all(|&byte| byte == FILLING),
                "pi ({name}): bytes after the result"
            );
        }
        Err(number) => {
            assert_eq!(outcome.answer.map_err(|refusal| refusal.number), Err(number), "pi ({name})")
        }
    }
    assert!(spent <= most, "pi ({name}): {spent:.1?} of processor time; it may take {most:?}");
    spent
}

#[test]
fn pi_answers_the_hard_sheets_in_bounded_time() {
    for sheet in hard_sheets() {
        let (name, most) = (sheet.case.name.clone(), sheet.most);
        println!("{name:<66} {:>9.1?} of {most:?}", try_sheet(sheet));
    }
}
