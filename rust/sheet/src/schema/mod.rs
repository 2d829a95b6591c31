//! Schemas with names.

mod sheet;
mod text;

use crate::path::Path;

/// A schema: nodes (tables), links (edges), columns (attributes), each numbered
/// from 0 by their order, and equations between paths.
///
/// The sheet has no names; a schema decoded from a sheet has the names `node0`,
/// `link0`, `column0` and so on.
#[derive(Debug, Clone, Default, PartialEq, Eq)]
pub struct Schema {
    /// The nodes' names.
    pub nodes: Vec<String>,
    /// The links.
    pub links: Vec<Link>,
    /// The columns.
    pub columns: Vec<Column>,
    /// The equations.
    pub equations: Vec<Equation>,
}

/// A link from the rows of one node to the rows of another.
#[derive(Debug, Clone, PartialEq, Eq)]
pub struct Link {
    /// Its name, its own among the links and columns of its node.
    pub name: String,
    /// The node whose rows have it.
    pub source: usize,
    /// The node whose rows it leads to.
    pub target: usize,
}

/// A column of values at a node.
#[derive(Debug, Clone, PartialEq, Eq)]
pub struct Column {
    /// Its name, its own among the links and columns of its node.
    pub name: String,
    /// The node whose rows have it.
    pub node: usize,
    /// The number of its kind in [`crate::kinds::KINDS`].
    pub kind: usize,
}

/// An equation between two paths.
#[derive(Debug, Clone, PartialEq, Eq)]
pub struct Equation {
    /// The left side.
    pub left: Path,
    /// The right side.
    pub right: Path,
}

impl Schema {
    /// "1 to 16 nodes"
    pub const MOST_NODES: usize = 16;
    /// "32 edges"
    pub const MOST_LINKS: usize = 32;
    /// "16 attributes"
    pub const MOST_COLUMNS: usize = 16;
    /// "32 equations"
    pub const MOST_EQUATIONS: usize = 32;
    /// "256 paths (trivial ones counted, unequal as lists)"
    pub const MOST_PATHS: usize = 256;

    /// The number of the node with this name.
    pub fn node(&self, name: &str) -> Option<usize> {
        self.nodes.iter().position(|node| node == name)
    }

    /// The number of the link with this name at a node.
    pub fn link_at(&self, node: usize, name: &str) -> Option<usize> {
        self.links.iter().position(|link| link.source == node && link.name == name)
    }

    /// The number of the column with this name at a node.
    pub fn column_at(&self, node: usize, name: &str) -> Option<usize> {
        self.columns.iter().position(|column| column.node == node && column.name == name)
    }

    /// The numbers of the links from a node, ascending.
    pub fn links_from(&self, node: usize) -> Vec<usize> {
        (0..self.links.len()).filter(|&link| self.links[link].source == node).collect()
    }

    /// The numbers of the columns at a node, ascending.
    pub fn columns_at(&self, node: usize) -> Vec<usize> {
        (0..self.columns.len()).filter(|&column| self.columns[column].node == node).collect()
    }

    /// A node's name, for messages also where the node is missing.
    pub fn node_name(&self, node: usize) -> String {
        match self.nodes.get(node) {
            Some(name) => name.clone(),
            None => format!("(missing node {node})"),
        }
    }

    /// A link's full name, `Dent.joint`.
    pub fn link_name(&self, link: usize) -> String {
        match self.links.get(link) {
            Some(found) => format!("{}.{}", self.node_name(found.source), found.name),
            None => format!("(missing link {link})"),
        }
    }

    /// A column's full name, `Dent.station`.
    pub fn column_name(&self, column: usize) -> String {
        match self.columns.get(column) {
            Some(found) => format!("{}.{}", self.node_name(found.node), found.name),
            None => format!("(missing column {column})"),
        }
    }

    /// An equation's text, `Dent.a.b = Dent.c`.
    pub fn equation_text(&self, equation: &Equation) -> String {
        format!("{} = {}", equation.left.text(self), equation.right.text(self))
    }
}
