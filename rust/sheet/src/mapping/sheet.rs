//! Mappings as sheets.

use super::Mapping;
use crate::bits::{BitReader, BitWriter, Fault, Unwritable};
use crate::path::{read_links, write_links};
use crate::schema::Schema;

impl Mapping {
    /// The mapping sheet: "each node's image 4; each edge's image as length 4
    /// and edges 5 each, starting at the image of the edge's source; each
    /// attribute's image 4."
    ///
    /// ```
    /// let f = sheet::Mapping {
    ///     nodes: vec![0, 1, 0],
    ///     links: vec![vec![0], vec![0]],
    ///     columns: vec![0, 0],
    /// };
    /// assert_eq!(f.to_sheet(), Ok(vec![0x01, 0x01, 0x00, 0x80, 0x00]));
    /// ```
    ///
    /// # Errors
    /// A number that its field cannot hold.
    pub fn to_sheet(&self) -> Result<Vec<u8>, Unwritable> {
        let mut writer = BitWriter::new();
        for (number, &image) in self.nodes.iter().enumerate() {
            writer.number(4, image, || format!("the image of node {number}"))?;
        }
        for (number, image) in self.links.iter().enumerate() {
            write_links(&mut writer, image, || format!("the image of link {number}"))?;
        }
        for (number, &image) in self.columns.iter().enumerate() {
            writer.number(4, image, || format!("the image of column {number}"))?;
        }
        Ok(writer.finish())
    }

    /// Decodes a mapping sheet of S, whether or not its images fit.
    ///
    /// # Errors
    /// The first fault: 1 or 2.
    pub fn from_sheet(s: &Schema, sheet: &[u8]) -> Result<Self, Fault> {
        let mut reader = BitReader::new(sheet);
        let mut mapping = Mapping::default();
        for node in 0..s.nodes.len() {
            let name = || format!("the image of {}", s.node_name(node));
            mapping.nodes.push(reader.number(4, name)?);
        }
        for link in 0..s.links.len() {
            let name = || format!("the image of {}", s.link_name(link));
            mapping.links.push(read_links(&mut reader, name)?);
        }
        for column in 0..s.columns.len() {
            let name = || format!("the image of {}", s.column_name(column));
            mapping.columns.push(reader.number(4, name)?);
        }
        reader.finish()?;
        Ok(mapping)
    }
}
