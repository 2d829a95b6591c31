//! The commands.

mod check;
mod compose;
mod draw;
mod first_path;
mod matching;
mod migrate;
mod pack;
mod rows;
mod same_path;
mod show;
mod version;
mod why;

use crate::arguments::Arguments;
use crate::failure::Failure;

/// A command: its name, the options it takes, and what it does with the words
/// that follow it.
pub struct Command {
    /// The name.
    pub name: &'static str,
    /// The options it takes.
    pub options: &'static [&'static str],
    /// What it does.
    pub run: fn(&Arguments, &[String]) -> Result<(), Failure>,
}

const FILES: &[&str] = &["--output", "--force"];
const TRAYS: &[&str] = &["--output", "--force", "--tray"];

const CHANGES: &[&str] = &["--output", "--force", "--tray", "--pushed"];

const COMMANDS: [Command; 17] = [
    Command {
        name: "pack",
        options: &["--output", "--force", "--hex", "--unchecked"],
        run: pack::run,
    },
    Command { name: "show", options: FILES, run: show::run },
    Command { name: "check", options: &[], run: check::run },
    Command { name: "delta", options: TRAYS, run: migrate::delta },
    Command { name: "sigma", options: TRAYS, run: migrate::sigma },
    Command { name: "pi", options: TRAYS, run: migrate::pi },
    Command { name: "query", options: TRAYS, run: migrate::query },
    Command { name: "compose", options: TRAYS, run: compose::run },
    Command { name: "add-row", options: CHANGES, run: rows::add },
    Command { name: "withdraw-row", options: CHANGES, run: rows::withdraw },
    Command { name: "match", options: &[], run: matching::check },
    Command { name: "turn", options: TRAYS, run: matching::turn },
    Command { name: "first-path", options: TRAYS, run: first_path::run },
    Command { name: "same-path", options: &[], run: same_path::run },
    Command { name: "why", options: &[], run: why::run },
    Command { name: "draw", options: FILES, run: draw::run },
    Command { name: "version", options: &[], run: version::run },
];

/// The command with this name.
pub fn find(name: &str) -> Option<&'static Command> {
    COMMANDS.iter().find(|command| command.name == name)
}

/// The commands' names, for messages.
pub fn names() -> String {
    let names: Vec<&str> = COMMANDS.iter().map(|command| command.name).collect();
    format!("{} or help", names.join(", "))
}

/// The first word after a command says what it is about.
fn sort<'a>(
    command: &'static str,
    sorts: &[&str],
    words: &'a [String],
) -> Result<(&'a str, &'a [String]), Failure> {
    let expected = || {
        let what = format!("expected `sheet {command} {}` and what to read", sorts.join("|"));
        Failure::usage(command, what)
    };
    let (sort, rest) = words.split_first().ok_or_else(expected)?;
    match sorts.contains(&sort.as_str()) {
        true => Ok((sort, rest)),
        false => Err(expected()),
    }
}
