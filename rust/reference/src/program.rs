//! The programs: the push program, Sigma of the run on standard input, as text,
//! and the dig sheet of request C-15 of document 02, the query of the run.

use crate::calls::{query_decoded, sigma_decoded};
use crate::instance::Instance;
use crate::refusal::Refusal;
use crate::schema::Schema;

/// The text that the push program prints for its whole input: "S, T, mapping
/// and run from standard input, each after its 16-bit byte length, most
/// significant byte first".  Every line ends with a newline.
pub fn push(input: &[u8]) -> Vec<u8> {
    let [s, t, f, run] = first_sheets(input);
    text(sigma_decoded(s, t, f, run)).into_bytes()
}

/// The text that the dig sheet's program prints for its whole input: "It reads
/// its eight sheets as the push program does and prints that program's lines."
/// They are the four schemas, F, G, H and the run.
pub fn dig(input: &[u8]) -> Vec<u8> {
    text(query_decoded(first_sheets(input))).into_bytes()
}

/// The sheets that a program reads; bytes after the last of them "are not read".
fn first_sheets<const COUNT: usize>(input: &[u8]) -> [&[u8]; COUNT] {
    let mut rest = input;
    [(); COUNT].map(|()| {
        let (sheet, after) = next_sheet(rest);
        rest = after;
        sheet
    })
}

/// The sheet at the start of the input, and what follows it.  "Bytes that the
/// input lacks are lacking in their sheets; a length of fewer than two bytes
/// counts as 0".
fn next_sheet(input: &[u8]) -> (&[u8], &[u8]) {
    match input {
        [high, low, rest @ ..] => {
            let length = usize::from(u16::from_be_bytes([*high, *low]));
            rest.split_at(length.min(rest.len()))
        }
        _ => (&[], &[]),
    }
}

/// The lines of a result or of a refusal.
fn text(result: Result<(Schema, Instance), Refusal>) -> String {
    match result {
        Ok((schema, instance)) => table_text(&schema, &instance),
        Err(refusal) => refusal_text(refusal),
    }
}

/// "A refusal prints `refused`, number, place."
fn refusal_text(refusal: Refusal) -> String {
    format!("refused {} {}\n", refusal.number, refusal.place)
}

/// "a header with tables and rows, then per row: table, row, link targets,
/// values"
fn table_text(schema: &Schema, instance: &Instance) -> String {
    let mut text = format!("tables {} rows {}\n", schema.nodes, instance.total_rows());
    for table in 0..schema.nodes {
        for row in 0..instance.rows[table] {
            text.push_str(&row_text(schema, instance, table, row));
        }
    }
    text
}

/// "All parts of a line stand with one space between them."
fn row_text(schema: &Schema, instance: &Instance, table: usize, row: usize) -> String {
    let mut parts = vec![table.to_string(), row.to_string()];
    for edge in schema.edges_from(table) {
        parts.push(instance.links[edge][row].to_string());
    }
    for attribute in schema.attributes_at(table) {
        parts.push(instance.values[attribute][row].to_string());
    }
    parts.join(" ") + "\n"
}
