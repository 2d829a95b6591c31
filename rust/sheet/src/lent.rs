//! Sheets with the files they come from, ready to be lent to a call.

use crate::bits::{Fault, Unwritable};
use crate::instance::{read_folder, Instance, Row};
use crate::mapping::Mapping;
use crate::matching::Matching;
use crate::names::listed;
use crate::path::Path;
use crate::schema::Schema;
use crate::text::{Lines, TextError};

/// A sheet, with the file it comes from and, where that is text, the lines of
/// its facts.
#[derive(Debug, Clone, PartialEq, Eq)]
pub struct Lent {
    /// The file or folder, as named in messages.
    pub file: String,
    /// The sheet that is lent.
    pub sheet: Vec<u8>,
    /// The lines of the text; none where the file itself is a sheet.
    pub lines: Option<Lines>,
}

/// A schema's sheet, with its names.
#[derive(Debug, Clone, PartialEq, Eq)]
pub struct LentSchema {
    /// The sheet.
    pub lent: Lent,
    /// The schema, or the fault for which the sheet cannot be decoded.  Names
    /// come from the text, or are `node0`, `link0`, `column0` and so on.
    pub schema: Result<Schema, Fault>,
}

impl LentSchema {
    /// A schema from its text.
    ///
    /// # Errors
    /// Where the text is wrong.
    pub fn from_text(file: &str, text: &str) -> Result<Self, Vec<TextError>> {
        let (schema, lines) = Schema::parse(file, text)?;
        let lent = Lent::written(file, schema.to_sheet(), lines)?;
        Ok(LentSchema { lent, schema: Ok(schema) })
    }

    /// A schema from its sheet.
    pub fn from_sheet(file: &str, sheet: Vec<u8>) -> Self {
        let schema = Schema::from_sheet(&sheet);
        LentSchema { lent: Lent::from_sheet(file, sheet), schema }
    }
}

impl Lent {
    /// Any sheet as it is.
    pub fn from_sheet(file: &str, sheet: Vec<u8>) -> Self {
        Lent { file: file.to_string(), sheet, lines: None }
    }

    /// A mapping from its text.
    ///
    /// # Errors
    /// Where the text is wrong.
    pub fn mapping(file: &str, text: &str, s: &Schema, t: &Schema) -> Result<Self, Vec<TextError>> {
        let (mapping, lines) = Mapping::parse(file, text, s, t)?;
        Self::written(file, mapping.to_sheet(), lines)
    }

    /// An instance from its folder of CSV files.
    ///
    /// # Errors
    /// Where files are missing or wrong.
    pub fn instance(folder: &std::path::Path, schema: &Schema) -> Result<Self, Vec<TextError>> {
        let tables = read_folder(folder, schema)?;
        let instance = Instance::parse(&tables, schema)?;
        let file = folder.display().to_string();
        Self::written(&file, instance.to_sheet(), Lines::default())
    }

    /// A matching from its CSV text, over the schema of its rows' tables.
    ///
    /// # Errors
    /// Where the text is wrong.
    pub fn matching(file: &str, text: &str, schema: &Schema) -> Result<Self, Vec<TextError>> {
        let (matching, lines) = Matching::parse(file, text, schema)?;
        Self::written(file, matching.to_sheet(), lines)
    }

    /// A path from its text.
    ///
    /// # Errors
    /// Where the text is wrong.
    pub fn path(text: &str, schema: &Schema) -> Result<Self, Vec<TextError>> {
        let file = format!("path {text}");
        let path = Path::parse(schema, text).map_err(|what| vec![TextError::of(&file, what)])?;
        Self::written(&file, path.to_sheet(), Lines::default())
    }

    /// A row that is not yet in its table, from words as [`Row::parse`] reads them.
    ///
    /// # Errors
    /// Where a word is wrong, or the table is missing.
    pub fn row<S: AsRef<str>>(
        schema: &Schema,
        table: &str,
        words: &[S],
    ) -> Result<Self, Vec<TextError>> {
        let file = format!("the new row of {table}");
        let row = match schema.node(table) {
            Some(number) => Row::parse(schema, number, words),
            None => {
                let known = listed(&schema.nodes);
                Err(vec![format!("no node is named `{table}`; the nodes: {known}")])
            }
        };
        let told = |whats: Vec<String>| -> Vec<TextError> {
            whats.into_iter().map(|what| TextError::of(&file, what)).collect()
        };
        Self::written(&file, row.map_err(told)?.to_sheet(), Lines::default())
    }

    fn written(
        file: &str,
        sheet: Result<Vec<u8>, Unwritable>,
        lines: Lines,
    ) -> Result<Self, Vec<TextError>> {
        let sheet = sheet.map_err(|told| vec![TextError::of(file, told.to_string())])?;
        Ok(Lent { file: file.to_string(), sheet, lines: Some(lines) })
    }

    /// The file, and the line of a fact where the file is text.
    pub(crate) fn place(&self, line: impl Fn(&Lines) -> Option<&usize>) -> String {
        match self.lines.as_ref().and_then(line) {
            Some(line) => format!("{} line {line}", self.file),
            None => self.file.clone(),
        }
    }

    /// The place of a row in an instance's folder or sheet.
    pub(crate) fn row_place(&self, table: &str, row: usize) -> String {
        match self.lines {
            Some(_) => {
                let file = std::path::Path::new(&self.file).join(format!("{table}.csv"));
                format!("{} row {row}", file.display())
            }
            None => format!("{}, {table} row {row}", self.file),
        }
    }
}
