//! `differential COUNT [SEED]`: tries so many cases and tells how they ended;
//! status 1 with the first case that differs.  `differential changes COUNT [SEED]` tries
//! changes of a run, in streams, `differential compose COUNT [SEED]` the laws of composed
//! mappings.

use differential::composition_laws::{by_the_library, try_all_laws};
use differential::{cases, changes, compare, count_and_seed};
use std::process::ExitCode;
use std::time::Instant;

fn main() -> ExitCode {
    let words: Vec<String> = std::env::args().skip(1).collect();
    let (what, rest) = match words.as_slice() {
        [first, rest @ ..] if first == "changes" || first == "compose" => (first.as_str(), rest),
        all => ("", all),
    };
    let Some((count, seed)) = count_and_seed(rest) else {
        eprintln!("usage: differential [changes | compose] COUNT [SEED]");
        return ExitCode::from(2);
    };
    let start = Instant::now();
    match tried(what, seed, count) {
        Ok(report) => {
            print!("{report}");
            println!("seed {seed}: 0 differences, {} seconds", start.elapsed().as_secs());
            ExitCode::SUCCESS
        }
        Err(difference) => {
            print!("{difference}");
            println!("seed {seed}: the first difference");
            ExitCode::FAILURE
        }
    }
}

/// How the cases ended, or the first that differs.
fn tried(what: &str, seed: u64, count: usize) -> Result<String, String> {
    let compared = match what {
        "compose" => return try_all_laws(seed, count, by_the_library).map(|met| met.to_string()),
        "changes" => compare(changes(seed, count)),
        _ => compare(cases(seed, count)),
    };
    compared.map(|report| report.to_string()).map_err(|difference| difference.to_string())
}
