//! CSV as spreadsheets write it: quotes, any line ends, a byte order mark, and
//! `;` or a tab where the header has no comma.

use crate::text::without_mark;
use std::ops::RangeInclusive;

/// A line of cells.
#[derive(Debug, Clone, PartialEq, Eq)]
pub(crate) struct Record {
    /// The line on which it begins, counted from 1.
    pub(crate) line: usize,
    /// The cells without blanks around them.
    pub(crate) cells: Vec<String>,
}

/// Where the text is no CSV: the line and what is wrong.
pub(crate) type Broken = (usize, String);

/// The records of a text.  Records without anything in their cells and comments
/// (the first cell begins with `#`) are left out.
pub(crate) fn records(text: &str) -> Result<Vec<Record>, Broken> {
    let text = without_mark(text);
    let mut reader = Reader { rest: text.chars().peekable(), line: 1, separator: separator(text) };
    let mut records = Vec::new();
    while reader.rest.peek().is_some() {
        if reader.skipped_comment() {
            continue;
        }
        let record = reader.record()?;
        let comment = record.cells.first().is_some_and(|cell| cell.starts_with('#'));
        if !comment && record.cells.iter().any(|cell| !cell.is_empty()) {
            records.push(record);
        }
    }
    Ok(records)
}

/// The separator: the first of comma, semicolon and tab in the first line that
/// is no comment.
fn separator(text: &str) -> char {
    let mut lines = text.lines().map(str::trim);
    let comment = |line: &str| line.trim_start_matches('"').starts_with('#');
    let header = lines.find(|line| !line.is_empty() && !comment(line));
    let found =
        header.and_then(|line| line.chars().find(|letter| [',', ';', '\t'].contains(letter)));
    found.unwrap_or(',')
}

struct Reader<'a> {
    rest: std::iter::Peekable<std::str::Chars<'a>>,
    line: usize,
    separator: char,
}

impl Reader<'_> {
    /// Leaves out a line that begins with `#`, whatever quotes it has.
    fn skipped_comment(&mut self) -> bool {
        while self.rest.next_if_eq(&' ').is_some() {}
        if self.rest.peek() != Some(&'#') {
            return false;
        }
        while self.rest.next_if(|&letter| letter != '\r' && letter != '\n').is_some() {}
        self.end_line();
        true
    }

    fn record(&mut self) -> Result<Record, Broken> {
        let line = self.line;
        let mut cells = vec![self.cell()?];
        while self.rest.next_if_eq(&self.separator).is_some() {
            cells.push(self.cell()?);
        }
        self.end_line();
        Ok(Record { line, cells })
    }

    /// Goes past a line end, in whichever form.
    fn end_line(&mut self) {
        self.rest.next_if_eq(&'\r');
        self.rest.next_if_eq(&'\n');
        self.line += 1;
    }

    /// The next cell; the reader then stands at its separator or line end.
    fn cell(&mut self) -> Result<String, Broken> {
        while self.rest.next_if_eq(&' ').is_some() {}
        if self.rest.next_if_eq(&'"').is_some() {
            return self.quoted();
        }
        let mut cell = String::new();
        let separator = self.separator;
        while let Some(letter) = self.rest.next_if(|&letter| !ends_cell(letter, separator)) {
            cell.push(letter);
        }
        Ok(cell.trim().to_string())
    }

    fn quoted(&mut self) -> Result<String, Broken> {
        let opened = self.line;
        let mut cell = String::new();
        loop {
            match self.rest.next() {
                Some('"') if self.rest.next_if_eq(&'"').is_some() => cell.push('"'),
                Some('"') => break,
                Some('\n') => {
                    self.line += 1;
                    cell.push('\n');
                }
                Some(letter) => cell.push(letter),
                None => return Err((opened, "a quote without its end; expected `\"`".into())),
            }
        }
        while self.rest.next_if_eq(&' ').is_some() {}
        let separator = self.separator;
        match self.rest.peek() {
            Some(&letter) if !ends_cell(letter, separator) => {
                Err((self.line, format!("`{letter}` after a quoted cell; expected `{separator}`")))
            }
            _ => Ok(cell.trim().to_string()),
        }
    }
}

fn ends_cell(letter: char, separator: char) -> bool {
    letter == separator || letter == '\r' || letter == '\n'
}

/// A line of cells as text.  Names and numbers never need quotes.
pub(crate) fn line<S: AsRef<str>>(cells: &[S]) -> String {
    let cells: Vec<&str> = cells.iter().map(AsRef::as_ref).collect();
    cells.join(",") + "\n"
}

/// The largest row number that a sheet's field holds.
pub(crate) const FIELD_ROW: usize = 511;

/// A header's cells, without empty ones at its end.
pub(crate) fn headers(head: &Record) -> &[String] {
    let last = head.cells.iter().rposition(|cell| !cell.is_empty());
    &head.cells[..last.map_or(0, |last| last + 1)]
}

/// No cell stands beyond the `headers` that the file has.
pub(crate) fn within_headers(record: &Record, headers: usize) -> Result<(), String> {
    match record.cells.iter().skip(headers).find(|cell| !cell.is_empty()) {
        Some(cell) => {
            Err(format!("`{cell}` stands beyond the last header; expected {headers} cells"))
        }
        None => Ok(()),
    }
}

/// Where row numbers with their lines, in order, are not 0, 1, 2 and so on, each
/// once; `table` stands before a row's number.
pub(crate) fn misnumbered(table: &str, rows: &[(usize, usize)]) -> Option<Broken> {
    for (expected, &(row, line)) in rows.iter().enumerate() {
        if row < expected {
            let (_, first) = rows[expected - 1];
            let what =
                format!("{table}row {row} is already on line {first}; expected each row once");
            return Some((line, what));
        }
        if row > expected {
            let what = format!(
                "{table}row {row}, but there is no row {expected}; expected rows 0, 1, 2 and so on"
            );
            return Some((line, what));
        }
    }
    None
}

/// A whole number from 0 to `most` in decimal digits; else what is told of the
/// cell, with the numbers that are expected there.
pub(crate) fn number(cell: &str, most: u32, expected: RangeInclusive<u32>) -> Result<u32, String> {
    let digits = cell.chars().all(|letter| letter.is_ascii_digit());
    let value = cell.parse().ok().filter(|&value| digits && value <= most);
    value.ok_or_else(|| {
        let found = if cell.is_empty() { "empty".to_string() } else { format!("`{cell}`") };
        let (smallest, largest) = expected.into_inner();
        format!("is {found}; expected a whole number from {smallest} to {largest}")
    })
}

#[cfg(test)]
mod tests {
    use super::*;

    fn cells(text: &str) -> Vec<Vec<String>> {
        records(text).unwrap().into_iter().map(|record| record.cells).collect()
    }

    #[test]
    fn plain_and_spreadsheet_forms_are_the_same() {
        let plain = cells("row,joint\n0,1\n");
        assert_eq!(plain, [["row", "joint"], ["0", "1"]]);
        assert_eq!(cells("\u{feff}row,joint\r\n0,1\r\n"), plain);
        assert_eq!(cells("\"row\",\"joint\"\r\n\"0\",\"1\"\r\n"), plain);
        assert_eq!(cells("row;joint\n0;1\n"), plain);
        assert_eq!(cells("row\tjoint\n0\t1\n"), plain);
        assert_eq!(cells("row , joint\n 0 , \"1\" \n\n,\n"), plain);
        assert_eq!(cells("row,joint\r0,1\r"), plain);
        assert_eq!(cells("\"# one, two\";\nrow;joint\n0;1\n"), plain);
        assert_eq!(cells("# a comment, \"with commas\r\nrow,joint\n \"#\"\n0,1"), plain);
    }

    #[test]
    fn quotes_hold_separators_quotes_and_line_ends() {
        let text = "a,\"b,\"\"c\"\"\nd\"\ne,f\n";
        assert_eq!(cells(text), [["a", "b,\"c\"\nd"], ["e", "f"]]);
        let lines: Vec<usize> = records(text).unwrap().iter().map(|record| record.line).collect();
        assert_eq!(lines, [1, 3]);
    }

    #[test]
    fn broken_quotes_are_told_with_their_line() {
        let open = records("a\n\"b\n").unwrap_err();
        assert_eq!(open, (2, "a quote without its end; expected `\"`".to_string()));
        let after = records("a\n\"b\"c\n").unwrap_err();
        assert_eq!(after, (2, "`c` after a quoted cell; expected `,`".to_string()));
    }

    #[test]
    fn numbers_are_digits_within_their_bound() {
        let number = |cell: &str| number(cell, 9, 1..=8);
        assert_eq!(number("007"), Ok(7));
        assert_eq!([number("0"), number("9")], [Ok(0), Ok(9)]);
        for bad in ["10", "-1", "+1", "1.0", "", "x", "99999999999999999999"] {
            let told = number(bad).expect_err(bad);
            assert!(told.ends_with("; expected a whole number from 1 to 8"), "{told}");
        }
    }
}
