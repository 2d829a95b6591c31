//! `sheet compose`

use crate::arguments::Arguments;
use crate::ask::{ask, decoded, schema};
use crate::failure::Failure;
use crate::output;
use sheet::{Answer, Call, Mapping, Role};

/// The mapping of S to U that two mappings make, one after the other.
pub fn run(arguments: &Arguments, words: &[String]) -> Result<(), Failure> {
    let (question, answer) = ask("compose", Call::Compose, words, arguments)?;
    let Answer::Sheet(sheet) = answer else {
        return Err(Failure::Trouble("compose gave no sheet".to_string()));
    };
    output::write(arguments, &sheet, || {
        let (s, u) = (schema(&question, Role::S)?, schema(&question, Role::U)?);
        Ok(decoded("the mapping", Mapping::from_sheet(s, &sheet))?.to_text(s, u))
    })
}
