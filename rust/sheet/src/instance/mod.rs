//! Instances: the rows of each table, where each link leads, and the value in
//! each column.

mod csv;
mod folder;
mod row;
mod sheet;

pub(crate) use csv::header;
pub use folder::{read_folder, TableText};
pub use row::Row;

use crate::path::Path;
use crate::schema::Schema;

/// An instance of a schema.
#[derive(Debug, Clone, Default, PartialEq, Eq)]
pub struct Instance {
    /// Each table's row count.
    pub rows: Vec<usize>,
    /// For each link, each source row's target row.
    pub links: Vec<Vec<usize>>,
    /// For each column, each row's value.
    pub values: Vec<Vec<u32>>,
}

impl Instance {
    /// "512 rows in all"
    pub const MOST_ROWS: usize = 512;

    /// An instance without rows.
    pub fn empty(schema: &Schema) -> Self {
        Instance {
            rows: vec![0; schema.nodes.len()],
            links: vec![Vec::new(); schema.links.len()],
            values: vec![Vec::new(); schema.columns.len()],
        }
    }

    /// The rows of all tables together.
    pub fn total_rows(&self) -> usize {
        self.rows.iter().sum()
    }

    /// The row count of a table; 0 where the table is missing.
    pub fn count(&self, table: usize) -> usize {
        self.rows.get(table).copied().unwrap_or(0)
    }

    /// The row that a link leads to from a row.
    pub fn target(&self, link: usize, row: usize) -> Option<usize> {
        self.links.get(link)?.get(row).copied()
    }

    /// The value in a column at a row.
    pub fn value(&self, column: usize, row: usize) -> Option<u32> {
        self.values.get(column)?.get(row).copied()
    }

    /// The row that a path leads to from a row of its start's table.
    pub fn follow(&self, path: &Path, row: usize) -> Option<usize> {
        path.links.iter().try_fold(row, |row, &link| self.target(link, row))
    }

    /// The row counts in words: `Dent 2, Joint 2, Loss 1`.
    pub fn counts_text(&self, schema: &Schema) -> String {
        let tables = self.rows.iter().enumerate();
        let tables: Vec<String> =
            tables.map(|(node, rows)| format!("{} {rows}", schema.node_name(node))).collect();
        tables.join(", ")
    }
}
