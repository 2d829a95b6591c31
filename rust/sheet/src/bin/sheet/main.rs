//! The command `sheet`: text and CSV to the proved calls and back.

#![forbid(unsafe_code)]

mod arguments;
mod ask;
mod commands;
mod failure;
mod help;
mod input;
mod output;
mod staged;

use arguments::Arguments;
use failure::Failure;
use std::process::ExitCode;

fn main() -> ExitCode {
    let words: Vec<_> = std::env::args_os().skip(1).collect();
    match run(words) {
        Ok(()) => ExitCode::SUCCESS,
        Err(failure) => failure.tell(),
    }
}

fn run(words: Vec<std::ffi::OsString>) -> Result<(), Failure> {
    let arguments = Arguments::parse(words)?;
    let Some((command, rest)) = arguments.words.split_first() else {
        return match arguments.help {
            true => output::print(help::OVERVIEW),
            false => Err(Failure::usage("", "expected a command")),
        };
    };
    if command == "help" {
        return help::print(rest.first().map(String::as_str));
    }
    let Some(command) = commands::find(command) else {
        let what = format!("no command is named `{command}`; expected {}", commands::names());
        return Err(Failure::usage("", what));
    };
    if arguments.help {
        return help::print(Some(command.name));
    }
    arguments.allow(command.name, command.options)?;
    (command.run)(&arguments, rest)
}
