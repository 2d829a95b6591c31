//! Limits of time, by which what never ends fails instead of hanging.
//!
//! The work is done in a thread of its own.  Where it is late that thread goes
//! on, until the process ends with what the caller makes of [`Late`].

use std::fmt;
use std::fs;
use std::panic::resume_unwind;
use std::sync::mpsc::{channel, RecvTimeoutError};
use std::thread;
use std::time::{Duration, Instant};

/// A step of some work was not done in time.
#[derive(Debug, Clone, Copy, PartialEq, Eq)]
pub struct Late<S> {
    /// The step, if one had begun.
    pub step: Option<S>,
    /// The time that each step had.
    pub limit: Duration,
}

impl<S> fmt::Display for Late<S> {
    fn fmt(&self, out: &mut fmt::Formatter<'_>) -> fmt::Result {
        write!(out, "no answer within {} seconds", self.limit.as_secs())
    }
}

/// What the working thread tells.
enum Told<S, T> {
    Step(S),
    Done(T),
}

/// What the work gives, if each of its steps is done in time; the work tells
/// where a step begins.
pub fn each_within<S: Send + 'static, T: Send + 'static>(
    limit: Duration,
    work: impl FnOnce(&dyn Fn(S)) -> T + Send + 'static,
) -> Result<T, Late<S>> {
    let (tell, told) = channel();
    let worker = thread::spawn(move || {
        // Nobody listens any more where the work was late.
        let done = work(&|step| drop(tell.send(Told::Step(step))));
        drop(tell.send(Told::Done(done)));
    });
    let mut step = None;
    loop {
        match told.recv_timeout(limit) {
            Ok(Told::Step(next)) => step = Some(next),
            Ok(Told::Done(done)) => return Ok(done),
            Err(RecvTimeoutError::Timeout) => return Err(Late { step, limit }),
            Err(RecvTimeoutError::Disconnected) => {
                resume_unwind(worker.join().expect_err("a thread that told no end"))
            }
        }
    }
}

/// What the work gives, if it is done in time.
pub fn within<T: Send + 'static>(
    limit: Duration,
    work: impl FnOnce() -> T + Send + 'static,
) -> Result<T, Late<()>> {
    each_within(limit, |_| work())
}

/// What the work gives, and the processor time that it took: other work on the
/// machine does not count.
pub fn processor_time<T>(work: impl FnOnce() -> T) -> (T, Duration) {
    let (start, before) = (Instant::now(), spent());
    let done = work();
    match (before, spent()) {
        (Some(before), Some(after)) => (done, after - before),
        _ => (done, start.elapsed()),
    }
}

/// The processor time of this thread so far, where the system tells it.
fn spent() -> Option<Duration> {
    let told = fs::read_to_string("/proc/thread-self/schedstat").ok()?;
    told.split_whitespace().next()?.parse().ok().map(Duration::from_nanos)
}
