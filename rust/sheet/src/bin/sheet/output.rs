//! Writing results: to standard output, or whole to files.

use crate::arguments::Arguments;
use crate::failure::Failure;
use crate::input::Form;
use crate::staged::{place_all, Staged};
use std::io::{ErrorKind, Write};
use std::path::{Path, PathBuf};

/// Writes to standard output.
pub fn print(text: &str) -> Result<(), Failure> {
    print_bytes(text.as_bytes())
}

/// Writes bytes to standard output.
pub fn print_bytes(bytes: &[u8]) -> Result<(), Failure> {
    let mut out = std::io::stdout().lock();
    out.write_all(bytes).and_then(|()| out.flush()).map_err(|error| match error.kind() {
        ErrorKind::BrokenPipe => Failure::ClosedPipe,
        _ => Failure::Trouble(format!("cannot write standard output: {error}")),
    })
}

/// Where a result goes.
pub enum Target {
    /// Standard output, in the form for reading.
    Print,
    /// Standard output, as a sheet.
    PrintSheet,
    /// A file, as a sheet.
    Sheet(PathBuf),
    /// A file or folder, as text.
    Text(PathBuf),
}

impl Target {
    /// The target of `-o`: a sheet where the name ends in `.sheet` or begins
    /// with `sheet:`, else text; `-` is standard output.
    pub fn of(output: Option<&str>) -> Self {
        match output {
            None | Some("-") => Target::Print,
            Some(word) => match Form::of(word) {
                Form::Sheet("-") => Target::PrintSheet,
                Form::Text("-") => Target::Print,
                Form::Sheet(file) => Target::Sheet(PathBuf::from(file)),
                Form::Text(file) => Target::Text(PathBuf::from(file)),
            },
        }
    }

    /// The file or folder; none of standard output.
    pub fn path(&self) -> Option<&Path> {
        match self {
            Target::Print | Target::PrintSheet => None,
            Target::Sheet(path) | Target::Text(path) => Some(path),
        }
    }
}

/// A result on its way.
pub enum Ready {
    /// To standard output.
    Print(Vec<u8>),
    /// To a file or folder, beside which it is written.
    Place(Staged),
}

/// Writes a sheet, or the text that it is, to standard output or a file.
pub fn write(
    arguments: &Arguments,
    sheet: &[u8],
    text: impl FnOnce() -> Result<String, Failure>,
) -> Result<(), Failure> {
    match Target::of(arguments.output.as_deref()) {
        Target::Print => print(&text()?),
        Target::PrintSheet => print_bytes(sheet),
        Target::Sheet(path) => write_file(&path, sheet, arguments.force),
        Target::Text(path) => write_file(&path, text()?.as_bytes(), arguments.force),
    }
}

/// Writes a file whole or not at all: beside it first, then renamed.  An
/// existing file is replaced only by `force`.
pub fn write_file(path: &Path, bytes: &[u8], force: bool) -> Result<(), Failure> {
    place_all(&[Staged::file(path, bytes, force)?], || Ok(()))
}
