//! The words and options of the command line.

use crate::failure::Failure;
use std::ffi::OsString;

/// What was written after `sheet`.
#[derive(Debug, Default)]
pub struct Arguments {
    /// The words that are no options: the command and what it takes.
    pub words: Vec<String>,
    /// `-o PATH`: where the result goes.
    pub output: Option<String>,
    /// `--pushed PATH`: where the pushed tables go, where they are not the only
    /// result.
    pub pushed: Option<String>,
    /// `--force`: existing files may be replaced.
    pub force: bool,
    /// `--hex`: a sheet is shown as hexadecimal bytes.
    pub hex: bool,
    /// `--unchecked`: a sheet is packed without asking the proved check.
    pub unchecked: bool,
    /// `--tray BYTES`: the bytes of the tray lent to the call.
    pub tray: Option<usize>,
    /// `--help`
    pub help: bool,
    /// The options that were given, by their long names.
    given: Vec<&'static str>,
}

impl Arguments {
    /// Parts words from options.  After `--` everything is a word.
    pub fn parse(words: Vec<OsString>) -> Result<Self, Failure> {
        let mut arguments = Arguments::default();
        let mut rest = words.into_iter();
        let mut only_words = false;
        while let Some(word) = rest.next() {
            let word = text(word)?;
            if only_words || word == "-" || !word.starts_with('-') {
                arguments.words.push(word);
                continue;
            }
            let (name, attached) = match word.split_once('=') {
                Some((name, value)) if name.starts_with("--") => (name, Some(value.to_string())),
                _ => (word.as_str(), None),
            };
            match name {
                "--" => only_words = true,
                "-h" | "--help" => arguments.help = true,
                "--force" => arguments.flag("--force", attached)?,
                "--hex" => arguments.flag("--hex", attached)?,
                "--unchecked" => arguments.flag("--unchecked", attached)?,
                "-o" | "--output" => {
                    arguments.output = Some(value(name, PLACE, attached, &mut rest)?);
                    arguments.given.push("--output");
                }
                "--pushed" => {
                    arguments.pushed = Some(value(name, PLACE, attached, &mut rest)?);
                    arguments.given.push("--pushed");
                }
                "--tray" => {
                    let bytes = value(name, BYTES, attached, &mut rest)?;
                    arguments.tray = Some(number_of_bytes(&bytes)?);
                    arguments.given.push("--tray");
                }
                "--version" => arguments.words.insert(0, "version".to_string()),
                _ => return Err(Failure::usage("", format!("no option is named `{word}`"))),
            }
        }
        Ok(arguments)
    }

    fn flag(&mut self, name: &'static str, attached: Option<String>) -> Result<(), Failure> {
        if attached.is_some() {
            return Err(Failure::usage("", format!("{name} takes no value")));
        }
        match name {
            "--force" => self.force = true,
            "--hex" => self.hex = true,
            _ => self.unchecked = true,
        }
        self.given.push(name);
        Ok(())
    }

    /// Every given option is one that the command takes.
    pub fn allow(&self, command: &'static str, options: &[&str]) -> Result<(), Failure> {
        match self.given.iter().find(|given| !options.contains(given)) {
            Some(given) => Err(Failure::usage(command, format!("{command} takes no {given}"))),
            None => Ok(()),
        }
    }
}

fn text(word: OsString) -> Result<String, Failure> {
    word.into_string()
        .map_err(|word| Failure::usage("", format!("{} is not UTF-8", word.to_string_lossy())))
}

/// What the options with a value expect.
const PLACE: &str = "a file or folder";
const BYTES: &str = "a number of bytes";

fn number_of_bytes(value: &str) -> Result<usize, Failure> {
    let bytes = value.parse::<u32>();
    let bytes =
        bytes.map_err(|_| Failure::usage("", format!("--tray {value}; expected {BYTES}")))?;
    Ok(bytes as usize)
}

/// An option's value, attached by `=` or the next word.
fn value(
    name: &str,
    expected: &str,
    attached: Option<String>,
    rest: &mut std::vec::IntoIter<OsString>,
) -> Result<String, Failure> {
    match attached {
        Some(value) => Ok(value),
        None => match rest.next() {
            Some(word) => text(word),
            None => Err(Failure::usage("", format!("expected {expected} after {name}"))),
        },
    }
}
