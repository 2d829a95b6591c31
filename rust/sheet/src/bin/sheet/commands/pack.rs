//! `sheet pack`

use super::sort;
use crate::arguments::Arguments;
use crate::ask::{answer, ask, load, schema};
use crate::failure::Failure;
use crate::input::{Form, Inputs};
use crate::output;
use sheet::{Call, Lent, Question, Role};
use std::path::Path;

const SORTS: [&str; 6] = ["schema", "mapping", "instance", "matching", "path", "row"];

/// Text to a sheet, which the proved check accepts unless it is not asked.
pub fn run(arguments: &Arguments, words: &[String]) -> Result<(), Failure> {
    let sheet = match sort("pack", &SORTS, words)? {
        ("schema", rest) => pack(arguments, Call::CheckSchema, Role::S, rest)?,
        ("mapping", rest) => pack(arguments, Call::CheckMapping, Role::Mapping, rest)?,
        ("instance", rest) => pack(arguments, Call::CheckInstance, Role::Run, rest)?,
        ("matching", rest) => pack_matching(arguments, rest)?,
        ("path", rest) => pack(arguments, Call::FirstPath, Role::P, rest)?,
        (_, rest) => pack_row(arguments, rest)?,
    };
    let bytes = match arguments.hex {
        true => hexadecimal(&sheet).into_bytes(),
        false => sheet,
    };
    match arguments.output.as_deref().map(Form::of) {
        None | Some(Form::Sheet("-") | Form::Text("-")) => output::print_bytes(&bytes),
        Some(Form::Sheet(file) | Form::Text(file)) => {
            output::write_file(Path::new(file), &bytes, arguments.force)
        }
    }
}

fn pack(
    arguments: &Arguments,
    call: Call,
    role: Role,
    words: &[String],
) -> Result<Vec<u8>, Failure> {
    let question = match arguments.unchecked {
        true => load("pack", call, words, &mut Inputs::default())?,
        false => ask("pack", call, words, arguments)?.0,
    };
    Ok(question.sheet(role).to_vec())
}

/// A list by itself says nothing of the rows it stands for; only its schema is
/// checked.
fn pack_matching(arguments: &Arguments, words: &[String]) -> Result<Vec<u8>, Failure> {
    let [over, list] = words else {
        let what = format!("expected SCHEMA LIST; {} given", words.len());
        return Err(Failure::usage("pack", what));
    };
    let mut inputs = Inputs::default();
    let question = with_schema(arguments, over, &mut inputs)?;
    Ok(inputs.matching(list, schema(&question, Role::S)?)?.sheet)
}

/// A row by itself says nothing of the run it comes to; only its schema is checked.
fn pack_row(arguments: &Arguments, words: &[String]) -> Result<Vec<u8>, Failure> {
    let [over, table, cells @ ..] = words else {
        let what = format!("expected SCHEMA TABLE NAME=VALUE ..; {} given", words.len());
        return Err(Failure::usage("pack", what));
    };
    let question = with_schema(arguments, over, &mut Inputs::default())?;
    Ok(Lent::row(schema(&question, Role::S)?, table, cells)?.sheet)
}

/// A question with a schema alone, which is checked unless it shall not be.
fn with_schema(
    arguments: &Arguments,
    over: &String,
    inputs: &mut Inputs,
) -> Result<Question, Failure> {
    let question = load("pack", Call::CheckSchema, std::slice::from_ref(over), inputs)?;
    if !arguments.unchecked {
        answer(&question)?;
    }
    Ok(question)
}

fn hexadecimal(sheet: &[u8]) -> String {
    let bytes: Vec<String> = sheet.iter().map(|byte| format!("{byte:02X}")).collect();
    bytes.join(" ") + "\n"
}
