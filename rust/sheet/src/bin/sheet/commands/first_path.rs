//! `sheet first-path`

use crate::arguments::Arguments;
use crate::ask::{ask, decoded, schema};
use crate::failure::Failure;
use crate::output;
use sheet::{Answer, Call, Path, Role, Schema};

/// The first path that is equal to a path.
pub fn run(arguments: &Arguments, words: &[String]) -> Result<(), Failure> {
    let (question, answer) = ask("first-path", Call::FirstPath, words, arguments)?;
    let Answer::Sheet(sheet) = answer else {
        return Err(Failure::Trouble("first-path gave no sheet".to_string()));
    };
    write(arguments, schema(&question, Role::S)?, &sheet)
}

/// Writes a path: a line of text to standard output or a file, or a sheet.
pub fn write(arguments: &Arguments, schema: &Schema, sheet: &[u8]) -> Result<(), Failure> {
    output::write(arguments, sheet, || {
        Ok(decoded("the path", Path::from_sheet(sheet))?.text(schema) + "\n")
    })
}
