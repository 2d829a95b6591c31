//! Typed instances of a schema: the rows of each table, where each link leads,
//! and the value in each column.

use crate::bits::{BitReader, BitWriter};
use crate::paths::Path;
use crate::refusal::{demand, Judged, BENT_ROW, COUNT, DANGLING, OFF_SCALE, OVERFULL};
use crate::schema::{Equation, Schema};
use std::ops::RangeInclusive;

/// Each kind's smallest and largest value, by kind.  Document 01 has "Kinds and
/// largest value (smallest 0)" and a list, of which request C-12 of document 02
/// changes one entry: "twelve o'clock is written 720 and never 0. Kind 2
/// therefore runs from 1 to 720. A kind now has a smallest value as well as a
/// largest".
pub const RANGES: [RangeInclusive<u32>; 16] = [
    0..=4294967295, // 0 plain
    0..=4294967295, // 1 station in mm
    1..=720,        // 2 clock in minutes
    0..=1000,       // 3 depth in thousandths of wall
    0..=20000,      // 4 length mm
    0..=5000,       // 5 width mm
    0..=5000,       // 6 wall in 0.01 mm
    0..=1600,       // 7 diameter mm
    0..=25000,      // 8 pressure kPa
    0..=4000,       // 9 temperature 0.1 K
    0..=65535,      // 10 day
    0..=86399,      // 11 second of day
    0..=10000,      // 12 speed mm/s
    0..=4294967295, // 13 identifier
    0..=1,          // 14 flag
    0..=0,          // 15 unused
];

/// A decoded instance sheet.
#[derive(Debug, Clone, PartialEq, Eq)]
pub struct Instance {
    /// Each table's row count.
    pub rows: Vec<usize>,
    /// For each edge, each source row's target row.
    pub links: Vec<Vec<usize>>,
    /// For each attribute, each row's value.
    pub values: Vec<Vec<u32>>,
}

impl Instance {
    /// "512 rows in all"
    pub const MOST_ROWS: usize = 512;

    /// Decodes and judges an instance sheet over an accepted schema: 1 in the
    /// counts, 3, 1 in the rest, 2, then 9, 10 and 11, each over the whole
    /// sheet.
    pub fn accept(schema: &Schema, sheet: &[u8]) -> Judged<Self> {
        let instance = Self::read(schema, sheet)?;
        instance.check(schema)?;
        Ok(instance)
    }

    /// "Instance: each table's row count 10; for each edge, each source row's
    /// target row 9; for each attribute, each row's value 32."  Gives 1, 3 and
    /// 2.
    fn read(schema: &Schema, sheet: &[u8]) -> Judged<Self> {
        let mut reader = BitReader::new(sheet);
        let rows = reader.numbers(schema.nodes, 10)?;
        demand(rows.iter().sum::<usize>() <= Self::MOST_ROWS, COUNT)?;
        let mut links = Vec::new();
        for edge in &schema.edges {
            links.push(reader.numbers(rows[edge.source], 9)?);
        }
        let mut values = Vec::new();
        for attribute in &schema.attributes {
            values.push(read_values(&mut reader, rows[attribute.node])?);
        }
        reader.finish()?;
        Ok(Instance { rows, links, values })
    }

    /// Judges the decoded instance: 9, then 10, then 11, each over the whole of
    /// it.
    pub(crate) fn check(&self, schema: &Schema) -> Judged<()> {
        demand(self.has_all_targets(schema), DANGLING)?;
        demand(self.is_on_scale(schema), OFF_SCALE)?;
        demand(self.obeys_equations(schema), BENT_ROW)
    }

    /// No "target row at or beyond its table's count".
    fn has_all_targets(&self, schema: &Schema) -> bool {
        let mut links = self.links.iter().zip(&schema.edges);
        links.all(|(targets, edge)| targets.iter().all(|&row| row < self.rows[edge.target]))
    }

    /// No value below its kind's smallest or above its kind's largest: "10 is
    /// given below the one or above the other."
    fn is_on_scale(&self, schema: &Schema) -> bool {
        let mut columns = self.values.iter().zip(&schema.attributes);
        columns.all(|(values, attribute)| {
            values.iter().all(|&value| RANGES[attribute.kind].contains(&value))
        })
    }

    /// No "row where the two sides of an equation lead to different rows".
    fn obeys_equations(&self, schema: &Schema) -> bool {
        schema.equations.iter().all(|equation| self.obeys(equation))
    }

    fn obeys(&self, equation: &Equation) -> bool {
        let mut rows = 0..self.rows[equation.left.start];
        rows.all(|row| self.follow(&equation.left, row) == self.follow(&equation.right, row))
    }

    /// The row that a path leads to from a row of its start's table.
    pub fn follow(&self, path: &Path, row: usize) -> usize {
        path.edges.iter().fold(row, |row, &edge| self.links[edge][row])
    }

    /// The number of rows of all tables together.
    pub fn total_rows(&self) -> usize {
        self.rows.iter().sum()
    }

    /// This migrated or changed instance, or 15 where it "has more than 512
    /// rows".
    pub fn unless_overfull(self) -> Judged<Self> {
        demand(self.total_rows() <= Self::MOST_ROWS, OVERFULL)?;
        Ok(self)
    }

    /// The instance sheet.  A number too large for its field is written by its
    /// low bits.
    pub fn to_sheet(&self) -> Vec<u8> {
        let mut writer = BitWriter::new();
        for &count in &self.rows {
            writer.number(10, count);
        }
        for &target in self.links.iter().flatten() {
            writer.number(9, target);
        }
        for &value in self.values.iter().flatten() {
            writer.field(32, value);
        }
        writer.finish()
    }
}

/// The values of one column, or of one row.
pub(crate) fn read_values(reader: &mut BitReader, count: usize) -> Judged<Vec<u32>> {
    (0..count).map(|_| reader.field(32)).collect()
}
