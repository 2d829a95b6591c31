//! `program-differential NAME PROGRAM COUNT [SEED]`: runs the program of a name, `push`
//! or `dig`, on so many inputs, then twice in turn on each of a tenth as many pairs of
//! inputs in a pipe that stays open; compares what it prints with the reference's text,
//! and what it leaves with the bytes after its sheets.

use differential::count_and_seed;
use differential::pipe::LIMIT;
use differential::program::{Program, PROGRAMS};
use std::io;
use std::process::{Command, ExitCode};

fn main() -> ExitCode {
    let words: Vec<String> = std::env::args().skip(1).collect();
    let [name, path, rest @ ..] = words.as_slice() else { return usage() };
    let Some(program) = PROGRAMS.into_iter().find(|program| program.name == name) else {
        return usage();
    };
    let Some((count, seed)) = count_and_seed(rest) else { return usage() };
    let same = texts(program, path, count, seed)
        .and_then(|same| Ok(same && twice(program, path, count, seed)?));
    match same {
        Ok(true) => ExitCode::SUCCESS,
        Ok(false) => ExitCode::FAILURE,
        Err(error) => {
            eprintln!("{path}: {error}");
            ExitCode::FAILURE
        }
    }
}

/// Whether the program prints what the reference prints, and leaves what is left.
fn texts(program: Program, path: &str, count: usize, seed: u64) -> io::Result<bool> {
    let inputs = program.inputs(seed, count);
    let compared = program.compare_texts(|| Command::new(path), inputs)?;
    let name = program.name;
    match &compared {
        Ok([refusals, tables]) => {
            println!("{name}: {tables} tables, {refusals} refusals, 0 differences")
        }
        Err(other) => print!("{other}"),
    }
    Ok(compared.is_ok())
}

/// The same of the program run twice on one pipe.
fn twice(program: Program, path: &str, count: usize, seed: u64) -> io::Result<bool> {
    let pairs = program.pairs(seed, count / 10);
    let compared = program.compare_pairs(|| Command::new(path), pairs, LIMIT)?;
    let name = program.name;
    match &compared {
        Ok([at_once, slowly]) => println!(
            "{name}, twice on an open pipe: {at_once} pairs at once, {slowly} byte by byte, 0 differences"
        ),
        Err(other) => print!("{other}"),
    }
    Ok(compared.is_ok())
}

fn usage() -> ExitCode {
    eprintln!("usage: program-differential push|dig PROGRAM COUNT [SEED]");
    ExitCode::from(2)
}
