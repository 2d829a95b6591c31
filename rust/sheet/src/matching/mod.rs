//! Matchings: for each row of one instance its partner, a row of the same table
//! of another.

mod csv;
mod sheet;

/// A list of partners.
#[derive(Debug, Clone, Default, PartialEq, Eq)]
pub struct Matching {
    /// For each table, each row's partner.
    pub partners: Vec<Vec<usize>>,
}

impl Matching {
    /// The row count of each table.
    pub fn counts(&self) -> Vec<usize> {
        self.partners.iter().map(Vec::len).collect()
    }
}
