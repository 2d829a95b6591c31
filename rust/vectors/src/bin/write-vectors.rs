//! Writes the vector file and the expected text of the program `cases`, and
//! tells how many cases there are of each outcome.
//!
//! `write-vectors FOLDER` writes `FOLDER/stdin` and `FOLDER/stdout`.

use std::path::Path;
use std::process::ExitCode;
use vectors::answer::reference_outcome;
use vectors::record::{files, stored_cases};
use vectors::report::Report;

fn main() -> ExitCode {
    let arguments: Vec<String> = std::env::args().skip(1).collect();
    let [folder] = arguments.as_slice() else {
        eprintln!("usage: write-vectors FOLDER");
        return ExitCode::from(2);
    };
    let mut report = Report::default();
    for case in stored_cases() {
        report.add(case.call, &reference_outcome(&case));
    }
    print!("{report}");
    let (vectors, expected) = files();
    println!("{} bytes, {} bytes expected", vectors.len(), expected.len());
    let folder = Path::new(folder);
    let written = std::fs::write(folder.join("stdin"), vectors)
        .and_then(|()| std::fs::write(folder.join("stdout"), expected));
    match written {
        Ok(()) => ExitCode::SUCCESS,
        Err(error) => {
            eprintln!("{}: {error}", folder.display());
            ExitCode::FAILURE
        }
    }
}
