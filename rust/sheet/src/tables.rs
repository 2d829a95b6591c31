//! Instances as aligned tables, for reading.

use crate::bits::counted;
use crate::instance::{header, Instance};
use crate::schema::Schema;

/// All tables, each with its name, its row count, a header and its rows,
/// aligned to the right.
///
/// ```
/// let text = "node Dent\ncolumn Dent.station : station\n";
/// let (schema, _) = sheet::Schema::parse("s.schema", text).unwrap();
/// let run = sheet::Instance { rows: vec![2], links: vec![], values: vec![vec![700, 300]] };
/// assert_eq!(
///     sheet::aligned_tables(&run, &schema),
///     "Dent, 2 rows\n  row  station\n    0      700\n    1      300\n"
/// );
/// ```
pub fn aligned_tables(instance: &Instance, schema: &Schema) -> String {
    let tables: Vec<String> =
        (0..schema.nodes.len()).map(|node| aligned(instance, schema, node)).collect();
    tables.join("\n")
}

fn aligned(instance: &Instance, schema: &Schema, node: usize) -> String {
    let count = instance.count(node);
    let mut lines = vec![header(schema, node)];
    lines.extend((0..count).map(|row| instance.cells(schema, node, row)));
    let mut widths: Vec<usize> = Vec::new();
    for line in &lines {
        for (place, cell) in line.iter().enumerate() {
            let width = cell.chars().count();
            match widths.get_mut(place) {
                Some(widest) => *widest = width.max(*widest),
                None => widths.push(width),
            }
        }
    }
    let mut text = format!("{}, {}\n", schema.node_name(node), counted(count, "row"));
    for line in lines {
        for (cell, width) in line.iter().zip(&widths) {
            text.push_str(&format!("  {cell:>width$}"));
        }
        text.push('\n');
    }
    text
}
