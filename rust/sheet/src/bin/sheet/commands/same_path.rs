//! `sheet same-path`

use crate::arguments::Arguments;
use crate::ask::ask;
use crate::failure::Failure;
use crate::output;
use sheet::{Answer, Call};

/// Prints `equal` or `unequal`; the exit status says it too, also where the pipe
/// is closed.
pub fn run(arguments: &Arguments, words: &[String]) -> Result<(), Failure> {
    match ask("same-path", Call::SamePath, words, arguments)? {
        (_, Answer::Equal(true)) => output::print("equal\n"),
        _ => match output::print("unequal\n") {
            Ok(()) | Err(Failure::ClosedPipe) => Err(Failure::Unequal),
            trouble => trouble,
        },
    }
}
