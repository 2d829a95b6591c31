//! What the calls cost.
//!
//! - `bench` prints for each case the nanoseconds of a call by the library, the
//!   reference and, for Sigma and the check of instances, the plain version, for a
//!   query Delta, Pi and Sigma in turn, and before them what is kept from call to call;
//!   `bench only NAME` prints a case.
//! - `bench names` prints the cases, `bench trials` the puzzles on which the trials
//!   of Pi's search are counted; `bench once NAME WHO` makes one call, for a counter
//!   of instructions.
//! - `bench sql ROWS FOLDER` writes the same push for SQLite, as scripts and rows.

#![forbid(unsafe_code)]

mod inputs;
mod sql;
mod trials;

use inputs::inputs;
use migration::{delta_into, pi_into, sigma_into, Refusal};
use std::hint::black_box;
use std::path::Path;
use std::process::ExitCode;
use std::time::{Duration, Instant};
use vectors::answer::reference_outcome;
use vectors::call::{Call, Case};

/// Who answers.
#[derive(Clone, Copy, PartialEq)]
enum Who {
    Library,
    /// The library's Delta, Pi and Sigma, each lent the result of the one before.
    InTurn,
    Plain,
    Reference,
}

const ALL: [(&str, Who); 4] = [
    ("library", Who::Library),
    ("in_turn", Who::InTurn),
    ("plain", Who::Plain),
    ("reference", Who::Reference),
];

/// Whether there is such a version of the call.
fn answers(who: Who, call: Call) -> bool {
    match who {
        Who::Library | Who::Reference => true,
        Who::InTurn => call == Call::Query,
        Who::Plain => matches!(call, Call::CheckInstance | Call::Sigma),
    }
}

/// The trays that a version of a call is lent.
struct Trays {
    /// The result's; in turn, one for each of the three results.
    result: Vec<u8>,
    /// Of a change the run's, whose bytes it reads and changes; else empty.
    run: Vec<u8>,
}

impl Trays {
    fn new(who: Who, case: &Case) -> Self {
        let count = if who == Who::InTurn { 3 } else { 1 };
        Trays { result: vec![0; count * case.tray], run: case.run_before().unwrap_or_default() }
    }

    /// The run of a change as it was before.
    fn restore(&mut self, case: &Case) {
        if case.call.is_change() {
            let run = case.sheet(3);
            self.run[..run.len()].copy_from_slice(run);
        }
    }
}

/// The query by the three calls of the library, in a tray for each.
fn in_turn(sheets: &[Vec<u8>], tray: &mut [u8]) -> Result<usize, Refusal> {
    let [s1, s2, s3, s4, f, g, h, run] = sheets else { unreachable!("a query") };
    let (projected, rest) = tray.split_at_mut(tray.len() / 3);
    let (joined, united) = rest.split_at_mut(rest.len() / 2);
    let length = delta_into(s2, s1, f, run, projected)?;
    let length = pi_into(s2, s3, g, &projected[..length], joined)?;
    sigma_into(s3, s4, h, &joined[..length], united)
}

/// A call by the reference.  It has a frame of its own, so that those of the library find
/// the stack as they would without it.
#[inline(never)]
fn referred(case: &Case) -> bool {
    reference_outcome(case).answer.is_ok()
}

/// A change of a run by the library; the same holds of it.
#[inline(never)]
fn changed(case: &Case, run: &mut [u8], tray: &mut [u8]) -> bool {
    differential::make(case, run, tray).is_ok()
}

/// One call.  Its name is what the counter of instructions looks for.
#[inline(never)]
fn measured(who: Who, case: &Case, tray: &mut [u8], run: &mut [u8]) -> bool {
    match (who, case.call, case.sheets.as_slice()) {
        (Who::Library, Call::AddRow | Call::WithdrawRow, _) => changed(case, run, tray),
        (Who::Library, call, sheets) => differential::call(call, sheets, tray).is_ok(),
        (Who::InTurn, _, sheets) => in_turn(sheets, tray).is_ok(),
        (Who::Plain, Call::CheckInstance, [s, i]) => plain::check_instance(s, i).is_ok(),
        (Who::Plain, _, [s, t, f, i]) => plain::sigma(s, t, f, i, tray).is_ok(),
        _ => referred(case),
    }
}

/// One version of a call, and the least nanoseconds that a call of it took in a
/// batch of at least a millisecond.
struct Timed<'a> {
    who: Who,
    case: &'a Case,
    trays: Trays,
    calls: u32,
    least: f64,
}

impl<'a> Timed<'a> {
    fn new(who: Who, case: &'a Case) -> Self {
        let trays = Trays::new(who, case);
        let mut timed = Timed { who, case, trays, calls: 1, least: f64::INFINITY };
        while timed.batch() < Duration::from_millis(1) {
            timed.calls *= 2;
        }
        timed
    }

    fn batch(&mut self) -> Duration {
        let start = Instant::now();
        for _ in 0..self.calls {
            self.trays.restore(self.case);
            let Trays { result, run } = &mut self.trays;
            black_box(measured(self.who, black_box(self.case), result, run));
        }
        start.elapsed()
    }

    /// Batches for some 40 milliseconds.
    fn round(&mut self) {
        let start = Instant::now();
        while start.elapsed() < Duration::from_millis(40) {
            let each = self.batch().as_nanos() as f64 / f64::from(self.calls);
            self.least = self.least.min(each);
        }
    }
}

/// The rounds of a case; in each all versions take their turn, so that other
/// work on the machine disturbs all alike.
const ROUNDS: usize = 12;

/// The state in which a call finds sheets and trays.
const STATE: &str = "\
Sheets are those of the call before. The library and the plain version write into
the tray of the call before, Delta, Pi and Sigma in turn into three; the reference
makes a tray of its own at each call. The run of a change is copied to its tray before.
The least time of a call over 12 rounds of 40 ms, in batches of at least 1 ms:
";

fn table() {
    print!("{STATE}");
    print!("{:28} {:>8}", "case", "bytes");
    ALL.iter().for_each(|(name, _)| print!(" {name:>12}"));
    println!();
    inputs().iter().for_each(line);
}

/// The line of a case.
fn line(case: &Case) {
    let version = |(_, who): (_, Who)| answers(who, case.call).then(|| Timed::new(who, case));
    let mut versions = ALL.map(version);
    for _ in 0..ROUNDS {
        versions.iter_mut().flatten().for_each(Timed::round);
    }
    let bytes: usize = (0..case.sheets.len()).map(|number| case.sheet(number).len()).sum();
    print!("{:28} {bytes:>8}", case.name);
    for version in versions {
        match version {
            Some(timed) => print!(" {:>9.0} ns", timed.least),
            None => print!(" {:>12}", "-"),
        }
    }
    println!();
}

/// The case of a name.
fn input(name: &str) -> Result<Case, String> {
    let input = || inputs().into_iter().find(|case| case.name == name);
    trials::puzzle(name).or_else(input).ok_or_else(|| format!("no case is named {name}"))
}

/// What stands on the stack from the start of a page on.
#[repr(align(4096))]
struct Page(u8);

/// One call, from a stack that begins at a page.  Where a program's stack begins
/// goes by the length of its environment, and how the C library copies arrays by
/// where they stand: so the instructions are the same in every environment.
#[inline(never)]
fn counted(who: Who, case: &Case, trays: &mut Trays) {
    let page = Page(0);
    black_box(&page.0);
    black_box(measured(who, case, &mut trays.result, &mut trays.run));
}

/// One call by name, the first on its sheets, with a tray that nothing has
/// touched yet.
fn once(name: &str, who: &str) -> Result<(), String> {
    let case = input(name)?;
    let mut versions = ALL.into_iter().filter(|&(_, version)| answers(version, case.call));
    let version = versions.find(|(name, _)| *name == who);
    let (_, who) = version.ok_or_else(|| format!("{name} is not answered by {who}"))?;
    let mut trays = Trays::new(who, &case);
    counted(who, &case, &mut trays);
    Ok(())
}

fn main() -> ExitCode {
    let words: Vec<String> = std::env::args().skip(1).collect();
    let words: Vec<&str> = words.iter().map(String::as_str).collect();
    let done = match words.as_slice() {
        [] => {
            table();
            Ok(())
        }
        ["names"] => {
            for case in inputs() {
                let known = ALL.iter().filter(|(_, who)| answers(*who, case.call));
                known.for_each(|(who, _)| println!("{} {who}", case.name));
            }
            Ok(())
        }
        ["trials"] => {
            trials::names().for_each(|name| println!("{name}"));
            Ok(())
        }
        ["only", name] => input(name).map(|case| line(&case)),
        ["once", name, who] => once(name, who),
        ["sql", rows, folder] => write_files(rows, folder),
        _ => Err("usage: bench [names | trials | only NAME | once NAME WHO | sql ROWS FOLDER]"
            .to_string()),
    };
    match done {
        Ok(()) => ExitCode::SUCCESS,
        Err(what) => {
            eprintln!("bench: {what}");
            ExitCode::from(2)
        }
    }
}

fn write_files(rows: &str, folder: &str) -> Result<(), String> {
    let rows = rows.parse().map_err(|_| format!("{rows} is no number of rows"))?;
    for (name, text) in sql::files(rows) {
        let file = Path::new(folder).join(name);
        std::fs::write(&file, text).map_err(|error| format!("{}: {error}", file.display()))?;
    }
    Ok(())
}
