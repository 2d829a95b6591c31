//! Reading what is lent: texts, folders and sheets.

use crate::failure::Failure;
use sheet::{Lent, LentSchema, Role, Schema, TextError};
use std::io::Read;
use std::path::Path;

/// A word of the command line as a file in one of its two forms.
///
/// `sheet:FILE`, FILE ending in `.sheet`, and `-` (standard input) are sheets;
/// everything else, and `text:FILE`, is text.
pub enum Form<'a> {
    /// A sheet in a file; `-` is standard input.
    Sheet(&'a str),
    /// A text or a folder; `-` is standard input.
    Text(&'a str),
}

impl<'a> Form<'a> {
    /// The form of a file named on the command line.
    pub fn of(word: &'a str) -> Self {
        if let Some(file) = word.strip_prefix("sheet:") {
            return Form::Sheet(file);
        }
        if let Some(file) = word.strip_prefix("text:") {
            return Form::Text(file);
        }
        match word == "-" || word.ends_with(".sheet") {
            true => Form::Sheet(word),
            false => Form::Text(word),
        }
    }
}

/// Whether a word means standard input.
pub fn is_standard_input(role: Role, word: &str) -> bool {
    match role {
        Role::P | Role::Q => word == "sheet:-",
        _ => matches!(Form::of(word), Form::Sheet("-") | Form::Text("-")),
    }
}

/// Reads inputs; standard input only once.
#[derive(Default)]
pub struct Inputs {
    standard_input_read: bool,
}

impl Inputs {
    /// A schema from text or sheet.
    pub fn schema(&mut self, word: &str) -> Result<LentSchema, Failure> {
        match Form::of(word) {
            Form::Sheet(file) => Ok(LentSchema::from_sheet(shown(file), self.bytes(file)?)),
            Form::Text(file) => Ok(LentSchema::from_text(shown(file), &self.text(file)?)?),
        }
    }

    /// A mapping from text or sheet.
    pub fn mapping(&mut self, word: &str, s: &Schema, t: &Schema) -> Result<Lent, Failure> {
        match Form::of(word) {
            Form::Sheet(file) => self.sheet(file),
            Form::Text(file) => Ok(Lent::mapping(shown(file), &self.text(file)?, s, t)?),
        }
    }

    /// An instance from a folder or a sheet.
    pub fn instance(&mut self, word: &str, schema: &Schema) -> Result<Lent, Failure> {
        match Form::of(word) {
            Form::Sheet(file) => self.sheet(file),
            Form::Text(folder) if Path::new(folder).is_file() => Err(Failure::Trouble(format!(
                "{folder} is a file; expected a folder with a CSV file for each table, \
                 or a sheet named .sheet or written as sheet:{folder}"
            ))),
            Form::Text(folder) => Ok(Lent::instance(Path::new(folder), schema)?),
        }
    }

    /// A matching from CSV or sheet, over the schema of its rows' tables.
    pub fn matching(&mut self, word: &str, schema: &Schema) -> Result<Lent, Failure> {
        match Form::of(word) {
            Form::Sheet(file) => self.sheet(file),
            Form::Text(file) => Ok(Lent::matching(shown(file), &self.text(file)?, schema)?),
        }
    }

    /// A path from its own text or, after `sheet:`, from a sheet.
    pub fn path(&mut self, word: &str, schema: &Schema) -> Result<Lent, Failure> {
        match word.strip_prefix("sheet:") {
            Some(file) => self.sheet(file),
            None => Ok(Lent::path(word, schema)?),
        }
    }

    /// Any sheet as it is.
    pub fn sheet(&mut self, file: &str) -> Result<Lent, Failure> {
        Ok(Lent::from_sheet(shown(file), self.bytes(file)?))
    }

    fn bytes(&mut self, file: &str) -> Result<Vec<u8>, Failure> {
        if file != "-" {
            let read = std::fs::read(file);
            return read.map_err(|error| Failure::Trouble(format!("cannot read {file}: {error}")));
        }
        if self.standard_input_read {
            return Err(Failure::usage("", "standard input can be lent only once"));
        }
        self.standard_input_read = true;
        let mut bytes = Vec::new();
        let read = std::io::stdin().lock().read_to_end(&mut bytes);
        let told = |error| Failure::Trouble(format!("cannot read standard input: {error}"));
        read.map_err(told).map(|_| bytes)
    }

    fn text(&mut self, file: &str) -> Result<String, Failure> {
        let bytes = self.bytes(file)?;
        String::from_utf8(bytes).map_err(|error| {
            let before = &error.as_bytes()[..error.utf8_error().valid_up_to()];
            let line = before.iter().filter(|&&byte| byte == b'\n').count() + 1;
            let what = "not UTF-8 text; a sheet is named .sheet or written as sheet:FILE";
            let file = shown(file).to_string();
            Failure::Text(vec![TextError { file, line: Some(line), what: what.to_string() }])
        })
    }
}

/// A file's name in messages.
fn shown(file: &str) -> &str {
    match file {
        "-" => "standard input",
        file => file,
    }
}
