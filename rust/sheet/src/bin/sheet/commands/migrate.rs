//! `sheet delta`, `sheet sigma`, `sheet pi` and `sheet query`

use crate::arguments::Arguments;
use crate::ask::{ask, decoded, schema};
use crate::failure::Failure;
use crate::output::{self, Ready, Target};
use crate::staged::{place_all, Staged};
use sheet::{aligned_tables, Answer, Call, Instance, Role, Schema};

/// Pulls a book back.
pub fn delta(arguments: &Arguments, words: &[String]) -> Result<(), Failure> {
    run("delta", Call::Delta, Role::S, arguments, words)
}

/// Pushes a run by joining tables.
pub fn sigma(arguments: &Arguments, words: &[String]) -> Result<(), Failure> {
    run("sigma", Call::Sigma, Role::T, arguments, words)
}

/// Pushes a run by fitting choices.
pub fn pi(arguments: &Arguments, words: &[String]) -> Result<(), Failure> {
    run("pi", Call::Pi, Role::T, arguments, words)
}

/// Projects a run, joins what is left of it, and unites the joined tables.
pub fn query(arguments: &Arguments, words: &[String]) -> Result<(), Failure> {
    run("query", Call::Query, Role::Schema(4), arguments, words)
}

fn run(
    command: &'static str,
    call: Call,
    over: Role,
    arguments: &Arguments,
    words: &[String],
) -> Result<(), Failure> {
    let (question, answer) = ask(command, call, words, arguments)?;
    let Answer::Sheet(sheet) = answer else {
        return Err(Failure::Trouble(format!("{command} gave no sheet")));
    };
    write(command, arguments, schema(&question, over)?, &sheet)
}

/// Writes an instance: aligned tables to standard output, a folder of CSV
/// files, or a sheet.
pub fn write(
    command: &'static str,
    arguments: &Arguments,
    schema: &Schema,
    sheet: &[u8],
) -> Result<(), Failure> {
    let target = Target::of(arguments.output.as_deref());
    match ready(command, target, schema, sheet, arguments.force)? {
        Ready::Print(bytes) => output::print_bytes(&bytes),
        Ready::Place(staged) => place_all(&[staged], || Ok(())),
    }
}

/// An instance in the form in which it goes to its target.
pub fn ready(
    command: &'static str,
    target: Target,
    schema: &Schema,
    sheet: &[u8],
    force: bool,
) -> Result<Ready, Failure> {
    let instance = || decoded("the instance", Instance::from_sheet(schema, sheet));
    match target {
        Target::Print => Ok(Ready::Print(aligned_tables(&instance()?, schema).into_bytes())),
        Target::PrintSheet => Ok(Ready::Print(sheet.to_vec())),
        Target::Sheet(path) => Staged::file(&path, sheet, force).map(Ready::Place),
        Target::Text(path) if path.extension().is_some_and(|ending| ending == "csv") => {
            let what = "an instance has several tables; name a folder, or a file ending in .sheet";
            Err(Failure::usage(command, what))
        }
        Target::Text(path) => {
            let files = instance()?.to_folder(schema);
            Staged::folder(&path, &files, force).map(Ready::Place)
        }
    }
}
