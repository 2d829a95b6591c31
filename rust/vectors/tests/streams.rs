//! Streams of changes: each is lent the trays as those before it left them.

use std::collections::BTreeSet;
use vectors::answer::{reference_outcome, Outcome};
use vectors::call::{Call, Case, FILLING};
use vectors::changes::Streams;

/// What a stream's last change that was not troubled left.
struct Left {
    stream: String,
    outcome: Outcome,
    /// The changes that were accepted.
    accepted: usize,
}

impl Left {
    /// The next change is lent the trays as they were left.
    fn is_lent(&self, next: &Case) {
        assert_eq!(next.run_before(), self.outcome.run, "{}", next.name);
        assert_eq!(next.tray_before(), self.outcome.tray, "{}", next.name);
        if let Some((run, _)) = self.outcome.lengths() {
            assert_eq!(next.numbers[0], run as u64, "{}", next.name);
        }
    }
}

/// Each change of a stream that is not troubled is lent the trays as the last such one left
/// them.
#[test]
fn a_stream_is_changes_of_one_run() {
    let mut left: Option<Left> = None;
    let (mut longest, mut counts) = (0, [0; 2]);
    for case in Streams::seeded(1).take(4000) {
        let (stream, what) = case.name.split_once(", ").expect("the stream's number");
        if !["a row added", "a row withdrawn"].contains(&what) {
            continue;
        }
        let mut accepted = 0;
        match left.filter(|left| left.stream == stream) {
            Some(left) => {
                left.is_lent(&case);
                accepted = left.accepted;
            }
            None => assert!(case.standing.is_empty(), "{}", case.name),
        }
        let outcome = reference_outcome(&case);
        if outcome.answer.is_ok() {
            accepted += 1;
            counts[usize::from(case.call == Call::WithdrawRow)] += 1;
        }
        longest = longest.max(accepted);
        left = Some(Left { stream: stream.to_string(), outcome, accepted });
    }
    println!("{counts:?} rows added and withdrawn, at most {longest} in a stream");
    assert!(longest > 10 && counts.iter().all(|&count| count > 400));
}

/// The bytes behind the run are not all one.
#[test]
fn bytes_behind_a_run_are_any() {
    let behind = |case: &Case| case.sheets[3][case.sheet(3).len()..].to_vec();
    let bytes: BTreeSet<u8> = Streams::seeded(1).take(500).flat_map(|c| behind(&c)).collect();
    assert!(bytes.len() == 256 && bytes.contains(&FILLING));
}
