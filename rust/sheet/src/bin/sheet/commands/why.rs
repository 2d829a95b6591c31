//! `sheet why`

use crate::arguments::Arguments;
use crate::ask::{ask, decoded};
use crate::failure::Failure;
use crate::output;
use sheet::Call;

/// Prints the steps by which two paths are equal, or what each is equal to.
pub fn run(arguments: &Arguments, words: &[String]) -> Result<(), Failure> {
    let (question, answer) = ask("why", Call::PathChain, words, arguments)?;
    let told = question.why(&answer).ok_or("it does not fit the paths");
    output::print(&decoded("the chain", told)?)
}
