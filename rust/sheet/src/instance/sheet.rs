//! Instances as sheets.

use super::Instance;
use crate::bits::{BitReader, BitWriter, Fault, Unwritable};
use crate::schema::Schema;

impl Instance {
    /// The instance sheet: "each table's row count 10; for each edge, each
    /// source row's target row 9; for each attribute, each row's value 32."
    ///
    /// Where there are more than 512 rows, the sheet will be sent back by 3
    /// whatever follows the counts; then a target row that its field cannot
    /// hold is written by its low bits.
    ///
    /// ```
    /// let run = sheet::Instance { rows: vec![1], links: vec![], values: vec![vec![7]] };
    /// assert_eq!(run.to_sheet(), Ok(vec![0x00, 0x40, 0x00, 0x00, 0x01, 0xC0]));
    /// ```
    ///
    /// # Errors
    /// A number that its field cannot hold.
    pub fn to_sheet(&self) -> Result<Vec<u8>, Unwritable> {
        let mut writer = BitWriter::new();
        for (table, &count) in self.rows.iter().enumerate() {
            writer.number(10, count, || format!("the row count of table {table}"))?;
        }
        if self.total_rows() > Self::MOST_ROWS {
            writer.allow_low_bits();
        }
        for (link, targets) in self.links.iter().enumerate() {
            for (row, &target) in targets.iter().enumerate() {
                writer.number(9, target, || format!("the target of link {link} at row {row}"))?;
            }
        }
        for &value in self.values.iter().flatten() {
            writer.field(32, value);
        }
        Ok(writer.finish())
    }

    /// Decodes an instance sheet over a schema, whether or not it would be
    /// accepted beyond 1, 2 and 3.
    ///
    /// # Errors
    /// The first fault in document 01's order: 1 in the counts, 3, 1, 2.
    pub fn from_sheet(schema: &Schema, sheet: &[u8]) -> Result<Self, Fault> {
        let mut reader = BitReader::new(sheet);
        let mut instance = Instance::default();
        for node in 0..schema.nodes.len() {
            let name = || format!("the row count of {}", schema.node_name(node));
            instance.rows.push(reader.number(10, name)?);
        }
        if instance.total_rows() > Self::MOST_ROWS {
            return Err(Fault::Count { what: instance.too_many(schema) });
        }
        for (link, found) in schema.links.iter().enumerate() {
            let rows = 0..instance.count(found.source);
            let name = |row| format!("{} at row {row}", schema.link_name(link));
            let targets = rows.map(|row| reader.number(9, || name(row)));
            instance.links.push(targets.collect::<Result<_, _>>()?);
        }
        for (column, found) in schema.columns.iter().enumerate() {
            let rows = 0..instance.count(found.node);
            let name = |row| format!("{} at row {row}", schema.column_name(column));
            let values = rows.map(|row| reader.field(32, || name(row)));
            instance.values.push(values.collect::<Result<_, _>>()?);
        }
        reader.finish()?;
        Ok(instance)
    }

    /// Too many rows, in words.
    pub(crate) fn too_many(&self, schema: &Schema) -> String {
        let (total, most) = (self.total_rows(), Self::MOST_ROWS);
        let counts = self.counts_text(schema);
        format!("{total} rows in all ({counts}), but an instance has at most {most}")
    }
}
