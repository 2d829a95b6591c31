//! `sheet match` and `sheet turn`

use super::sort;
use crate::arguments::Arguments;
use crate::ask::{ask, decoded, schema};
use crate::failure::Failure;
use crate::output::{self, Target};
use sheet::{Answer, Call, Matching, Role, Schema};

/// Asks one of the two checkers.
pub fn check(arguments: &Arguments, words: &[String]) -> Result<(), Failure> {
    let (side, rest) = sort("match", &["pushed", "raw"], words)?;
    let (call, leads) = match side {
        "pushed" => (Call::CheckPushed, "from the pushed run to the book"),
        _ => (Call::CheckRaw, "from the run to the pulled back book"),
    };
    let (question, _) = ask("match", call, rest, arguments)?;
    let rows = counts(question.run_counts())?.iter().sum::<usize>();
    output::print(&format!("accepted: a matching of {rows} rows, {leads}\n"))
}

/// Asks one of the two turnings.
pub fn turn(arguments: &Arguments, words: &[String]) -> Result<(), Failure> {
    let (way, rest) = sort("turn", &["pushed-to-raw", "raw-to-pushed"], words)?;
    let call = match way {
        "pushed-to-raw" => Call::PushedToRaw,
        _ => Call::RawToPushed,
    };
    let (question, answer) = ask("turn", call, rest, arguments)?;
    let Answer::Sheet(sheet) = answer else {
        return Err(Failure::Trouble("the turning gave no sheet".to_string()));
    };
    let (over, found) = match call {
        Call::PushedToRaw => (schema(&question, Role::S)?, question.run_counts()),
        _ => (schema(&question, Role::T)?, question.pushed_counts()),
    };
    write("turn", arguments, over, &counts(found)?, &sheet)
}

/// Writes a matching: CSV to standard output or a file, or a sheet.
pub fn write(
    command: &'static str,
    arguments: &Arguments,
    schema: &Schema,
    counts: &[usize],
    sheet: &[u8],
) -> Result<(), Failure> {
    let text = || -> Result<String, Failure> {
        let list = decoded("the list", Matching::from_sheet(schema, counts, sheet))?;
        Ok(list.to_csv(schema))
    };
    match Target::of(arguments.output.as_deref()) {
        Target::Print => output::print(&text()?),
        Target::PrintSheet => output::print_bytes(sheet),
        Target::Sheet(path) => output::write_file(&path, sheet, arguments.force),
        Target::Text(path) if path.extension().is_some_and(|ending| ending == "csv") => {
            output::write_file(&path, text()?.as_bytes(), arguments.force)
        }
        Target::Text(path) => {
            let what = format!("{}: expected a file ending in .csv or .sheet", path.display());
            Err(Failure::usage(command, what))
        }
    }
}

/// The row counts of an instance that the call has accepted or would give.
fn counts(found: Option<Vec<usize>>) -> Result<Vec<usize>, Failure> {
    decoded("the run", found.ok_or("its rows cannot be counted"))
}
