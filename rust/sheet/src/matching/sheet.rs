//! Matchings as sheets.

use super::Matching;
use crate::bits::{BitReader, BitWriter, Fault, Unwritable};
use crate::schema::Schema;

impl Matching {
    /// The matching sheet: "for each row of A, tables in order, the row of B
    /// 9."
    ///
    /// ```
    /// let list = sheet::Matching { partners: vec![vec![2, 0, 1], vec![0, 1]] };
    /// assert_eq!(list.to_sheet(), Ok(vec![0x01, 0x00, 0x00, 0x20, 0x00, 0x08]));
    /// ```
    ///
    /// # Errors
    /// A number that its field cannot hold.
    pub fn to_sheet(&self) -> Result<Vec<u8>, Unwritable> {
        let mut writer = BitWriter::new();
        for (table, partners) in self.partners.iter().enumerate() {
            for (row, &partner) in partners.iter().enumerate() {
                writer.number(9, partner, || format!("the partner of table {table} row {row}"))?;
            }
        }
        Ok(writer.finish())
    }

    /// Decodes a matching sheet.  The sheet has no counts: `counts` are the
    /// rows of each table of the instance that the list starts from.
    ///
    /// # Errors
    /// The first fault: 1 or 2.
    pub fn from_sheet(schema: &Schema, counts: &[usize], sheet: &[u8]) -> Result<Self, Fault> {
        let mut reader = BitReader::new(sheet);
        let mut partners = Vec::new();
        for (table, &count) in counts.iter().enumerate() {
            let name = |row| format!("the partner of {} row {row}", schema.node_name(table));
            let rows = (0..count).map(|row| reader.number(9, || name(row)));
            partners.push(rows.collect::<Result<_, _>>()?);
        }
        reader.finish()?;
        Ok(Matching { partners })
    }
}
