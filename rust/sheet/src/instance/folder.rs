//! An instance's folder: one file `TABLE.csv` for each table.

use crate::names::listed;
use crate::schema::Schema;
use crate::text::TextError;
use std::fs;
use std::path::Path;

/// One table's file.
#[derive(Debug, Clone, PartialEq, Eq)]
pub struct TableText {
    /// The file, as named in messages.
    pub file: String,
    /// Its text.
    pub text: String,
}

/// The files of a folder in the order of the schema's tables.
///
/// Files that do not end in `.csv` and hidden ones are left alone; a CSV file
/// that is no table's is an error, since its rows would be lost.
///
/// # Errors
/// Files that are missing, that belong to no table or cannot be read as text.
pub fn read_folder(folder: &Path, schema: &Schema) -> Result<Vec<TableText>, Vec<TextError>> {
    let shown = folder.display().to_string();
    let mut errors = Vec::new();
    match names_in(folder) {
        Err(error) => {
            return Err(vec![TextError::of(&shown, format!("cannot be read: {error}"))]);
        }
        Ok(names) => {
            for name in names.iter().filter(|name| table_of(name).is_some()) {
                if table_of(name).and_then(|table| schema.node(table)).is_none() {
                    let known = listed(&schema.nodes);
                    let file = folder.join(name).display().to_string();
                    let what = format!("is the file of no table; the tables: {known}");
                    errors.push(TextError::of(&file, what));
                }
            }
        }
    }
    let mut tables = Vec::new();
    for node in &schema.nodes {
        let path = folder.join(format!("{node}.csv"));
        let file = path.display().to_string();
        match read_text(&path) {
            Ok(text) => tables.push(TableText { file, text }),
            Err(what) => errors.push(TextError::of(&file, what)),
        }
    }
    match errors.is_empty() {
        true => Ok(tables),
        false => Err(errors),
    }
}

/// The table whose file has this name.
fn table_of(name: &str) -> Option<&str> {
    name.strip_suffix(".csv").filter(|table| !table.starts_with('.'))
}

/// The names in a folder, in order.
fn names_in(folder: &Path) -> std::io::Result<Vec<String>> {
    let mut names = Vec::new();
    for entry in fs::read_dir(folder)? {
        names.push(entry?.file_name().to_string_lossy().into_owned());
    }
    names.sort();
    Ok(names)
}

fn read_text(path: &Path) -> Result<String, String> {
    let bytes = fs::read(path).map_err(|error| match error.kind() {
        std::io::ErrorKind::NotFound => {
            "is missing; expected one file for each table, with a header line where it has no rows"
                .to_string()
        }
        _ => format!("cannot be read: {error}"),
    })?;
    String::from_utf8(bytes).map_err(|_| "is not UTF-8 text; save it as CSV in UTF-8".to_string())
}
