//! Request C-16 of document 02, "Rows that come and go": rows added to an accepted
//! run and withdrawn from it, on the decoded tables.

use crate::bits::{BitReader, BitWriter};
use crate::instance::{read_values, Instance};
use crate::refusal::{demand, Judged, ABSENT, STILL_HELD};
use crate::schema::Schema;

/// A decoded row sheet: a row to be added to a table.
#[derive(Debug, Clone, PartialEq, Eq)]
pub struct Row {
    /// For each edge from the table, by edge numbers, the target row.
    pub links: Vec<usize>,
    /// For each attribute at the table, by attribute numbers, the value.
    pub values: Vec<u32>,
}

impl Row {
    /// "an added row as a sheet (links 9 bits, then values)", of 32 bits as on
    /// every sheet.  A table with neither has the empty sheet.  Gives 1 and 2.
    fn read(schema: &Schema, table: usize, sheet: &[u8]) -> Judged<Self> {
        let mut reader = BitReader::new(sheet);
        let links = reader.numbers(schema.edges_from(table).len(), 9)?;
        let values = read_values(&mut reader, schema.attributes_at(table).len())?;
        reader.finish()?;
        Ok(Row { links, values })
    }

    /// The row sheet.  A number too large for its field is written by its low
    /// bits.
    pub fn to_sheet(&self) -> Vec<u8> {
        let mut writer = BitWriter::new();
        for &target in &self.links {
            writer.number(9, target);
        }
        for &value in &self.values {
            writer.field(32, value);
        }
        writer.finish()
    }
}

/// "Adding puts a row at its table's end with its links and values": the changed
/// run.
///
/// First 18.  "The tests on an added row are 1, 2, 9, 10, 11, 15 in that order, 15
/// where the run would pass 512 rows".  The run without the row is accepted and
/// adding changes no other row, so that 9, 10 and 11 apply to the changed run
/// exactly where they apply to the added row.
pub fn added(schema: &Schema, run: &Instance, table: usize, sheet: &[u8]) -> Judged<Instance> {
    demand(table < schema.nodes, ABSENT)?;
    let row = Row::read(schema, table, sheet)?;
    let changed = with_row(schema, run, table, &row);
    changed.check(schema)?;
    changed.unless_overfull()
}

/// "withdrawing takes a row out and moves later rows of that table down by one,
/// links included": the changed run.
///
/// "18, absent, the named table or row does not exist, before all other tests of
/// the change; 19, still held, a row to be withdrawn that another row links to,
/// after 18".
pub fn withdrawn(schema: &Schema, run: &Instance, table: usize, row: usize) -> Judged<Instance> {
    demand(table < schema.nodes && row < run.rows[table], ABSENT)?;
    demand(!is_held(schema, run, table, row), STILL_HELD)?;
    Ok(without_row(schema, run, table, row))
}

/// The run with one row more at the end of a table.
fn with_row(schema: &Schema, run: &Instance, table: usize, row: &Row) -> Instance {
    let mut changed = run.clone();
    changed.rows[table] += 1;
    for (edge, &target) in schema.edges_from(table).into_iter().zip(&row.links) {
        changed.links[edge].push(target);
    }
    for (attribute, &value) in schema.attributes_at(table).into_iter().zip(&row.values) {
        changed.values[attribute].push(value);
    }
    changed
}

/// Whether some row's link leads to the row.  Without loops it is another row's.
fn is_held(schema: &Schema, run: &Instance, table: usize, row: usize) -> bool {
    schema.edges_to(table).into_iter().any(|edge| run.links[edge].contains(&row))
}

/// The run without a row that no link leads to.
fn without_row(schema: &Schema, run: &Instance, table: usize, row: usize) -> Instance {
    let mut changed = run.clone();
    changed.rows[table] -= 1;
    for edge in schema.edges_from(table) {
        changed.links[edge].remove(row);
    }
    for attribute in schema.attributes_at(table) {
        changed.values[attribute].remove(row);
    }
    for edge in schema.edges_to(table) {
        let moved = |&target: &usize| if target > row { target - 1 } else { target };
        changed.links[edge] = run.links[edge].iter().map(moved).collect();
    }
    changed
}
