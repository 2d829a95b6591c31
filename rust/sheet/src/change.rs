//! A change of a run: a row that is added to a table, or one that is withdrawn from
//! it; the question that it is, and what it has moved, in words.

use crate::call::{Call, Role};
use crate::instance::Instance;
use crate::lent::Lent;
use crate::question::{Answer, Question};
use crate::schema::Schema;
use crate::text::TextError;
use migration::Refusal;

/// A change of a run.
#[derive(Debug, Clone, PartialEq, Eq)]
pub struct Change {
    /// The table, as it is named.
    pub table: String,
    /// The table's number; where no table has the name, one that no table has.
    pub number: usize,
    /// The row.
    pub row: ChangedRow,
}

/// The row of a change.
#[derive(Debug, Clone, PartialEq, Eq)]
pub enum ChangedRow {
    /// One to be added, as a sheet.
    New(Lent),
    /// One to be withdrawn, by its number.
    Old(usize),
}

impl Change {
    /// A row to be added, by words as [`Row::parse`](crate::Row::parse) reads them.
    /// Of a table that is missing they are not read, and the sheet is empty.
    ///
    /// # Errors
    /// Where a word is not as expected.
    pub fn add<S: AsRef<str>>(
        schema: &Schema,
        table: &str,
        words: &[S],
    ) -> Result<Self, Vec<TextError>> {
        let lent = match schema.node(table) {
            Some(_) => Lent::row(schema, table, words)?,
            None => Lent::from_sheet("no row", Vec::new()),
        };
        Ok(Self::add_sheet(schema, table, lent))
    }

    /// A row to be added, by its sheet.
    pub fn add_sheet(schema: &Schema, table: &str, row: Lent) -> Self {
        Self::of(schema, table, ChangedRow::New(row))
    }

    /// A row to be withdrawn, by its number.
    pub fn withdraw(schema: &Schema, table: &str, row: usize) -> Self {
        Self::of(schema, table, ChangedRow::Old(row))
    }

    fn of(schema: &Schema, table: &str, row: ChangedRow) -> Self {
        let number = schema.node(table).unwrap_or(schema.nodes.len());
        Change { table: table.to_string(), number, row }
    }

    /// The call that makes the change.
    pub fn call(&self) -> Call {
        match self.row {
            ChangedRow::New(_) => Call::AddRow,
            ChangedRow::Old(_) => Call::WithdrawRow,
        }
    }
}

impl Question {
    /// Lends a change, and asks the call that makes it.
    pub fn lend_change(&mut self, change: Change) {
        self.call = change.call();
        self.change = Some(change);
    }

    /// Asks for the change.  Where there is none yet, what is judged before a change
    /// is judged, which is what Sigma judges, and the run stays as it is.
    pub(crate) fn ask_change(&self) -> Result<Answer, Refusal> {
        let (s, t, f) = (self.sheet(Role::S), self.sheet(Role::T), self.sheet(Role::Mapping));
        let lent = self.sheet(Role::Run);
        let Some(Change { number, row, .. }) = &self.change else {
            let pushed = migration::sigma(s, t, f, lent)?;
            return Ok(Answer::Changed { run: lent.to_vec(), pushed });
        };
        let (table, length) = (*number, lent.len());
        let (mut run, mut pushed) = (self.run_tray(), self.new_tray());
        let lengths = match row {
            ChangedRow::New(row) => {
                let row = &row.sheet;
                migration::add_row(s, t, f, &mut run, length, table, row, &mut pushed)?
            }
            ChangedRow::Old(row) => {
                migration::withdraw_row(s, t, f, &mut run, length, table, *row, &mut pushed)?
            }
        };
        run.truncate(lengths.run);
        pushed.truncate(lengths.pushed);
        Ok(Answer::Changed { run, pushed })
    }

    /// The tray with the run in it, which is never shorter than the run.
    pub(crate) fn run_tray(&self) -> Vec<u8> {
        let run = self.sheet(Role::Run);
        let mut tray = self.new_tray();
        tray.resize(tray.len().max(run.len()), 0);
        tray[..run.len()].copy_from_slice(run);
        tray
    }

    /// What an accepted change has made new, or which rows it has moved and which
    /// links with them.  None where the question is none for a change.
    ///
    /// ```
    /// use sheet::{Call, Change, Instance, Lent, LentSchema, Question};
    /// let s = LentSchema::from_text("one.schema", "node Dent\n").unwrap();
    /// let run = Instance { rows: vec![5], links: vec![], values: vec![] };
    /// let mut question = Question::new(Call::WithdrawRow);
    /// question.run = Some(Lent::from_sheet("run.sheet", run.to_sheet().unwrap()));
    /// question.lend_change(Change::withdraw(s.schema.as_ref().unwrap(), "Dent", 2));
    /// question.s = Some(s);
    /// assert_eq!(question.news().unwrap(), "Dent 3 to 4 are now 2 to 3\n");
    /// ```
    pub fn news(&self) -> Option<String> {
        let change = self.change.as_ref()?;
        let (schema, run) = (self.s_schema()?, self.run_decoded()?);
        let (table, count) = (&change.table, run.count(change.number));
        let row = match change.row {
            ChangedRow::New(_) => return Some(format!("{table} {count} is new\n")),
            ChangedRow::Old(row) => row,
        };
        let last = count.checked_sub(1)?;
        let (moved, with) = match last.checked_sub(row)? {
            0 => return Some(format!("{table} {row} was the last row: no row has moved\n")),
            1 => (format!("{last} is now {row}"), "it"),
            _ => (format!("{} to {last} are now {row} to {}", row + 1, last - 1), "them"),
        };
        let mut text = format!("{table} {moved}\n");
        let links = moved_links(schema, &run, change.number, row);
        if !links.is_empty() {
            text.push_str(&format!("renumbered with {with}: {}\n", links.join("; ")));
        }
        Some(text)
    }
}

/// The links to rows of a table behind a row, each with the rows that have them:
/// `Dent.joint of row 0`, `Loss.joint of rows 1, 3 to 5`.
fn moved_links(schema: &Schema, run: &Instance, table: usize, row: usize) -> Vec<String> {
    let mut told = Vec::new();
    for (number, link) in schema.links.iter().enumerate() {
        let targets = run.links[number].iter().enumerate();
        let behind = targets.filter(|(_, &target)| link.target == table && target > row);
        let rows: Vec<usize> = behind.map(|(source, _)| source).collect();
        match rows.as_slice() {
            [] => {}
            [one] => told.push(format!("{} of row {one}", schema.link_name(number))),
            _ => told.push(format!("{} of rows {}", schema.link_name(number), spans(&rows))),
        }
    }
    told
}

/// The most spans of rows that are shown of a link.
const MOST_SHOWN: usize = 5;

/// Ascending numbers, neighbours as spans: `1, 3 to 5`.
fn spans(rows: &[usize]) -> String {
    let spans: Vec<&[usize]> = rows.chunk_by(|here, next| here + 1 == *next).collect();
    let shown = spans.iter().take(MOST_SHOWN).map(|span| match span {
        [first, .., last] => format!("{first} to {last}"),
        _ => span.iter().map(usize::to_string).collect(),
    });
    let text = shown.collect::<Vec<String>>().join(", ");
    match spans.iter().skip(MOST_SHOWN).map(|span| span.len()).sum() {
        0 => text,
        more => format!("{text} and {more} more"),
    }
}

#[cfg(test)]
mod tests {
    use super::*;

    #[test]
    fn neighbours_are_told_as_spans() {
        assert_eq!(spans(&[4]), "4");
        assert_eq!(spans(&[0, 1, 3, 5, 6, 7]), "0 to 1, 3, 5 to 7");
        assert_eq!(spans(&[0, 2, 4, 6, 8, 9]), "0, 2, 4, 6, 8 to 9");
        assert_eq!(spans(&[0, 2, 4, 6, 8, 10, 12, 13]), "0, 2, 4, 6, 8 and 3 more");
    }
}
