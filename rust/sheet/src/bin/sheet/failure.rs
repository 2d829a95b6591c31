//! How a command fails, and what is told then on standard error.

use sheet::{Explanation, TextError};
use std::io::Write;
use std::process::ExitCode;

/// Why a command ends otherwise than done.
#[derive(Debug)]
pub enum Failure {
    /// The command line is not as expected.
    Usage {
        /// The command whose help is pointed to; empty for the overview.
        command: &'static str,
        /// What is there and what was expected.
        what: String,
    },
    /// Texts are not as expected.
    Text(Vec<TextError>),
    /// The proved call refused.
    Refused(Box<Explanation>),
    /// A file cannot be read or written.
    Trouble(String),
    /// Two paths are unequal, which standard output has told.
    Unequal,
    /// Whoever read standard output has stopped reading.
    ClosedPipe,
}

/// The most errors in texts that are shown.
const MOST_SHOWN: usize = 20;

impl Failure {
    /// A wrong command line.
    pub fn usage(command: &'static str, what: impl Into<String>) -> Self {
        Failure::Usage { command, what: what.into() }
    }

    /// Tells the failure on standard error and gives the exit status: 1 where
    /// the proved call refused or the answer is no, 2 where it could not be asked
    /// or its result could not be written.
    pub fn tell(self) -> ExitCode {
        let (text, status) = match self {
            Failure::Usage { command, what } => {
                let see = match command {
                    "" => "sheet help".to_string(),
                    command => format!("sheet help {command}"),
                };
                (format!("sheet: {what}\nsee `{see}`\n"), 2)
            }
            Failure::Text(errors) => (text_errors(&errors), 2),
            Failure::Refused(explanation) => (explanation.to_string(), 1),
            Failure::Trouble(what) => (format!("sheet: {what}\n"), 2),
            Failure::Unequal => (String::new(), 1),
            Failure::ClosedPipe => (String::new(), 0),
        };
        // Nothing is left to be done where standard error is closed too.
        let _ = std::io::stderr().lock().write_all(text.as_bytes());
        ExitCode::from(status)
    }
}

fn text_errors(errors: &[TextError]) -> String {
    let shown = errors.iter().take(MOST_SHOWN).map(|error| format!("{error}\n"));
    let mut text: String = shown.collect();
    if errors.len() > MOST_SHOWN {
        text.push_str(&format!("and {} more\n", errors.len() - MOST_SHOWN));
    }
    text
}

impl From<Vec<TextError>> for Failure {
    fn from(errors: Vec<TextError>) -> Self {
        Failure::Text(errors)
    }
}
