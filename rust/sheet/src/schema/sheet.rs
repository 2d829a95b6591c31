//! Schemas as sheets.

use super::{Column, Equation, Link, Schema};
use crate::bits::{counted, BitReader, BitWriter, Fault, Unwritable};
use crate::path::Path;

impl Schema {
    /// The schema sheet: "nodes 5, edges 6, attributes 5, equations 6; each
    /// edge: source 4, target 4; each attribute: node 4, kind 4; each equation:
    /// two paths."
    ///
    /// Where a count is beyond its limit but its field holds it, the sheet will
    /// be sent back by 3 whatever follows; then a later number that its field
    /// cannot hold is written by its low bits.
    ///
    /// ```
    /// let text = "node Dent\nnode Joint\nlink Dent.joint -> Joint\n";
    /// let (schema, _) = sheet::Schema::parse("small.schema", text).unwrap();
    /// assert_eq!(schema.to_sheet(), Ok(vec![0x10, 0x20, 0x00, 0x04]));
    /// ```
    ///
    /// # Errors
    /// A number that its field cannot hold.
    pub fn to_sheet(&self) -> Result<Vec<u8>, Unwritable> {
        let mut writer = BitWriter::new();
        writer.number(5, self.nodes.len(), || "the number of nodes".to_string())?;
        writer.number(6, self.links.len(), || "the number of links".to_string())?;
        writer.number(5, self.columns.len(), || "the number of columns".to_string())?;
        writer.number(6, self.equations.len(), || "the number of equations".to_string())?;
        if self.count_beyond_limit().is_some() {
            writer.allow_low_bits();
        }
        for (number, link) in self.links.iter().enumerate() {
            writer.number(4, link.source, || format!("the source of link {number}"))?;
            writer.number(4, link.target, || format!("the target of link {number}"))?;
        }
        for (number, column) in self.columns.iter().enumerate() {
            writer.number(4, column.node, || format!("the node of column {number}"))?;
            writer.number(4, column.kind, || format!("the kind of column {number}"))?;
        }
        for (number, equation) in self.equations.iter().enumerate() {
            equation.left.write(&mut writer, || format!("equation {number}'s left side"))?;
            equation.right.write(&mut writer, || format!("equation {number}'s right side"))?;
        }
        Ok(writer.finish())
    }

    /// Decodes a schema sheet, whether or not it would be accepted beyond 1, 2
    /// and 3.  The names are `node0`, `link0`, `column0` and so on.
    ///
    /// ```
    /// let schema = sheet::Schema::from_sheet(&[0x10, 0x20, 0x00, 0x04]).unwrap();
    /// assert_eq!(schema.to_text(), "node node0\nnode node1\n\nlink node0.link0 -> node1\n");
    /// ```
    ///
    /// # Errors
    /// The first fault in document 01's order: 1 in the counts, 3, 1, 2.
    pub fn from_sheet(sheet: &[u8]) -> Result<Self, Fault> {
        let mut reader = BitReader::new(sheet);
        let counts = || "the leading counts".to_string();
        let nodes = reader.number(5, counts)?;
        let links = reader.number(6, counts)?;
        let columns = reader.number(5, counts)?;
        let equations = reader.number(6, counts)?;
        if let Some(what) = beyond_limit([nodes, links, columns, equations]) {
            return Err(Fault::Count { what });
        }
        let schema = Schema {
            nodes: (0..nodes).map(|number| format!("node{number}")).collect(),
            links: all(links, |number| read_link(&mut reader, number))?,
            columns: all(columns, |number| read_column(&mut reader, number))?,
            equations: all(equations, |number| read_equation(&mut reader, number))?,
        };
        reader.finish()?;
        Ok(schema)
    }

    /// The first count that is beyond its limit, in words.
    pub(crate) fn count_beyond_limit(&self) -> Option<String> {
        let (nodes, links) = (self.nodes.len(), self.links.len());
        beyond_limit([nodes, links, self.columns.len(), self.equations.len()])
    }
}

fn beyond_limit([nodes, links, columns, equations]: [usize; 4]) -> Option<String> {
    if nodes == 0 {
        return Some("no node, but a schema has at least 1".to_string());
    }
    let limits = [
        (nodes, Schema::MOST_NODES, "node"),
        (links, Schema::MOST_LINKS, "link"),
        (columns, Schema::MOST_COLUMNS, "column"),
        (equations, Schema::MOST_EQUATIONS, "equation"),
    ];
    let (count, most, noun) = limits.into_iter().find(|(count, most, _)| count > most)?;
    Some(format!("{}, but a schema has at most {most}", counted(count, noun)))
}

fn all<T>(count: usize, read: impl FnMut(usize) -> Result<T, Fault>) -> Result<Vec<T>, Fault> {
    (0..count).map(read).collect()
}

fn read_link(reader: &mut BitReader, number: usize) -> Result<Link, Fault> {
    let source = reader.number(4, || format!("the source of link {number}"))?;
    let target = reader.number(4, || format!("the target of link {number}"))?;
    Ok(Link { name: format!("link{number}"), source, target })
}

fn read_column(reader: &mut BitReader, number: usize) -> Result<Column, Fault> {
    let node = reader.number(4, || format!("the node of column {number}"))?;
    let kind = reader.number(4, || format!("the kind of column {number}"))?;
    Ok(Column { name: format!("column{number}"), node, kind })
}

fn read_equation(reader: &mut BitReader, number: usize) -> Result<Equation, Fault> {
    let left = Path::read(reader, || format!("equation {number}'s left side"))?;
    let right = Path::read(reader, || format!("equation {number}'s right side"))?;
    Ok(Equation { left, right })
}
