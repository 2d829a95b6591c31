//! What never ends fails within its limit, and what fails is told as it is.

use differential::limit::{each_within, processor_time, within, Late};
use std::thread::{park, sleep};
use std::time::Duration;

const SHORT: Duration = Duration::from_millis(50);
const LONG: Duration = Duration::from_secs(60);

fn forever() {
    loop {
        park();
    }
}

#[test]
fn what_is_done_in_time_is_handed_on() {
    assert_eq!(within(LONG, || 7), Ok(7));
    let sum = each_within(LONG, |begin: &dyn Fn(u32)| {
        (1..=3).for_each(begin);
        (1..=3).sum::<u32>()
    });
    assert_eq!(sum, Ok(6));
}

#[test]
fn what_is_late_is_told_by_its_step() {
    assert_eq!(within(SHORT, forever), Err(Late { step: None, limit: SHORT }));
    let late = each_within(SHORT, |begin: &dyn Fn(u32)| {
        begin(1);
        begin(2);
        forever()
    });
    assert_eq!(late, Err(Late { step: Some(2), limit: SHORT }));
}

#[test]
#[should_panic(expected = "a failure of the work")]
fn a_failure_is_handed_on() {
    let _ = within(LONG, || panic!("a failure of the work"));
}

/// A thread that waits takes no processor time, and one that works does.
#[test]
fn waiting_is_no_processor_time() {
    let ((), waited) = processor_time(|| sleep(Duration::from_millis(300)));
    assert!(waited < Duration::from_millis(200), "{waited:?}");
    let work = || (0..200_000_000u64).fold(0, |sum, n| std::hint::black_box(sum ^ n));
    let (_, worked) = processor_time(work);
    assert!(worked > Duration::from_millis(20), "{worked:?}");
}
