//! Matchings as CSV: table, row, partner.

use super::Matching;
use crate::csv::{self, Record, FIELD_ROW};
use crate::names::listed;
use crate::schema::Schema;
use crate::text::{Lines, TextError};

const HEADER: [&str; 3] = ["table", "row", "partner"];

impl Matching {
    /// Reads a matching's CSV over the schema of its rows' tables.  `file` is
    /// named in errors.
    ///
    /// ```
    /// let (schema, _) = sheet::Schema::parse("s.schema", "node Joint\n").unwrap();
    /// let text = "table,row,partner\nJoint,0,1\nJoint,1,0\n";
    /// let (list, lines) = sheet::Matching::parse("list.csv", text, &schema).unwrap();
    /// assert_eq!(list.partners, [[1, 0]]);
    /// assert_eq!(lines.rows, [[2, 3]]);
    /// ```
    ///
    /// # Errors
    /// Every line that is not as expected.
    pub fn parse(file: &str, text: &str, schema: &Schema) -> Result<(Self, Lines), Vec<TextError>> {
        let broken = |(line, what): csv::Broken| vec![TextError::at(file, line, what)];
        let records = csv::records(text).map_err(broken)?;
        let expected = HEADER.join(",");
        let Some((head, body)) = records.split_first() else {
            return Err(vec![TextError::of(file, format!("is empty; expected `{expected}`"))]);
        };
        let places =
            read_header(head).map_err(|what| vec![TextError::at(file, head.line, what)])?;
        let mut errors = Vec::new();
        let mut tables: Vec<Vec<Entry>> = schema.nodes.iter().map(|_| Vec::new()).collect();
        for record in body {
            match read_entry(record, places, schema) {
                Ok((table, entry)) => tables[table].push(entry),
                Err(what) => errors.push(TextError::at(file, record.line, what)),
            }
        }
        for (table, entries) in tables.iter_mut().enumerate() {
            errors.extend(number_error(file, &schema.nodes[table], entries));
        }
        if !errors.is_empty() {
            errors.sort_by_key(|error| error.line);
            return Err(errors);
        }
        let each = |read: fn(&Entry) -> usize| -> Vec<Vec<usize>> {
            tables.iter().map(|entries| entries.iter().map(read).collect()).collect()
        };
        let lines = Lines { rows: each(|entry| entry.line), ..Lines::default() };
        Ok((Matching { partners: each(|entry| entry.partner) }, lines))
    }

    /// The CSV form, tables and rows in order.  [`Matching::parse`] reads it
    /// back.
    pub fn to_csv(&self, schema: &Schema) -> String {
        let mut text = csv::line(&HEADER);
        for (table, partners) in self.partners.iter().enumerate() {
            let name = schema.node_name(table);
            for (row, partner) in partners.iter().enumerate() {
                text.push_str(&csv::line(&[name.clone(), row.to_string(), partner.to_string()]));
            }
        }
        text
    }
}

struct Entry {
    line: usize,
    row: usize,
    partner: usize,
}

/// The places of table, row and partner among the cells.
fn read_header(head: &Record) -> Result<[usize; 3], String> {
    let expected = HEADER.join(",");
    let headers = csv::headers(head);
    if let Some(cell) = headers.iter().find(|cell| !HEADER.contains(&cell.as_str())) {
        return Err(format!("header `{cell}`; expected `{expected}`"));
    }
    match HEADER.map(|name| headers.iter().position(|cell| cell == name)) {
        [Some(table), Some(row), Some(partner)] if headers.len() == 3 => Ok([table, row, partner]),
        _ => Err(format!("expected `{expected}`")),
    }
}

fn read_entry(
    record: &Record,
    [table, row, partner]: [usize; 3],
    schema: &Schema,
) -> Result<(usize, Entry), String> {
    csv::within_headers(record, HEADER.len())?;
    let cell = |place: usize| record.cells.get(place).map_or("", String::as_str);
    let node = schema.node(cell(table)).ok_or_else(|| {
        format!("no table is named `{}`; the tables: {}", cell(table), listed(&schema.nodes))
    })?;
    let most = FIELD_ROW as u32;
    let number = |place, name: &str| {
        csv::number(cell(place), most, 0..=most).map_err(|what| format!("{name} {what}"))
    };
    let row = number(row, "row")? as usize;
    let partner = number(partner, "partner")? as usize;
    Ok((node, Entry { line: record.line, row, partner }))
}

/// Sorts a table's entries by their rows, which are 0, 1, 2 and so on, each
/// once.
fn number_error(file: &str, table: &str, entries: &mut [Entry]) -> Option<TextError> {
    entries.sort_by_key(|entry| (entry.row, entry.line));
    let numbers: Vec<(usize, usize)> =
        entries.iter().map(|entry| (entry.row, entry.line)).collect();
    let broken = csv::misnumbered(&format!("{table} "), &numbers);
    broken.map(|(line, what)| TextError::at(file, line, what))
}
