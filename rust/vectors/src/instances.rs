//! Accepted instances of a schema, by chance.
//!
//! A list of links at random seldom obeys equations.  So an instance is made
//! from generators: a row at some table together with one row for each class of
//! paths from there, which obeys every equation; then rows are merged, and with
//! two rows all that their links lead to.  Every instance comes about this way.

use crate::random::Random;
use reference::classes::Classes;
use reference::plain::*;

/// A value of a kind: now and then the largest or any, else the smallest or one of
/// the two after it, so that equal values are common.
pub fn value(random: &mut Random, kind: usize) -> u32 {
    let (smallest, largest) = RANGES[kind].clone().into_inner();
    let more = match random.below(8) {
        0 => u32::MAX,
        1 => (random.bits() >> 32) as u32,
        _ => random.below(3) as u32,
    };
    smallest + more.min(largest - smallest)
}

/// An accepted instance of an accepted schema with some `generators` rows that
/// no equation speaks of, and at most 512 rows.
pub fn instance(random: &mut Random, schema: &Schema, generators: usize) -> Instance {
    let classes = Classes::of(schema);
    let mut tables = Tables::empty(schema);
    for _ in 0..random.below(generators + 1) {
        let node = random.below(schema.nodes);
        if !tables.generate(schema, &classes, node) {
            break;
        }
    }
    for _ in 0..random.below(tables.count() / 2 + 1) {
        let table = random.below(schema.nodes);
        let rows = tables.live(table);
        if rows.len() > 1 {
            let (a, b) = (*random.one_of(&rows), *random.one_of(&rows));
            tables.merge(schema, table, a, b);
        }
    }
    let plain = tables.instance(random, schema);
    shuffled(random, schema, &plain).0
}

/// Rows under construction: a row that was merged into another points to it.
struct Tables {
    /// For each table and row, the row that it was merged into, or itself.
    merged: Vec<Vec<usize>>,
    /// For each edge and row of its source, the row of its target.
    links: Vec<Vec<usize>>,
}

impl Tables {
    fn empty(schema: &Schema) -> Self {
        Tables { merged: vec![vec![]; schema.nodes], links: vec![vec![]; schema.edges.len()] }
    }

    fn count(&self) -> usize {
        self.merged.iter().map(Vec::len).sum()
    }

    /// Adds a row at `node` with a row for each class of paths from there; not
    /// if there would be too many.
    fn generate(&mut self, schema: &Schema, classes: &Classes, node: usize) -> bool {
        let firsts: Vec<&Path> = classes.from(node).filter(|p| classes.first(p) == *p).collect();
        if self.count() + firsts.len() > Instance::MOST_ROWS {
            return false;
        }
        let end = |p: &Path| p.end(schema).expect("a path of the schema");
        let mut row_of = std::collections::BTreeMap::new();
        for p in &firsts {
            let table = &mut self.merged[end(p)];
            row_of.insert(*p, table.len());
            table.push(table.len());
        }
        for p in &firsts {
            for edge in schema.edges_from(end(p)) {
                let next = p.followed_by(&Path::along(schema, edge));
                self.links[edge].push(row_of[classes.first(&next)]);
            }
        }
        true
    }

    /// The row that stands for a row after all merging.
    fn standing(&self, table: usize, row: usize) -> usize {
        let next = self.merged[table][row];
        if next == row {
            row
        } else {
            self.standing(table, next)
        }
    }

    /// The rows of a table that were not merged into others.
    fn live(&self, table: usize) -> Vec<usize> {
        (0..self.merged[table].len()).filter(|&row| self.merged[table][row] == row).collect()
    }

    /// Merges two rows, and then what their links lead to.
    fn merge(&mut self, schema: &Schema, table: usize, a: usize, b: usize) {
        let (a, b) = (self.standing(table, a), self.standing(table, b));
        if a == b {
            return;
        }
        self.merged[table][b] = a;
        for edge in schema.edges_from(table) {
            let (to_a, to_b) = (self.links[edge][a], self.links[edge][b]);
            self.merge(schema, schema.edges[edge].target, to_a, to_b);
        }
    }

    /// The standing rows, numbered anew, with random values.
    fn instance(&self, random: &mut Random, schema: &Schema) -> Instance {
        let live: Vec<Vec<usize>> = (0..schema.nodes).map(|table| self.live(table)).collect();
        let number = |table: usize, row: usize| {
            live[table].binary_search(&self.standing(table, row)).expect("a standing row")
        };
        let links = schema.edges.iter().zip(&self.links).map(|(edge, targets)| {
            live[edge.source].iter().map(|&row| number(edge.target, targets[row])).collect()
        });
        let links = links.collect();
        let column = |attribute: &Attribute| {
            live[attribute.node].iter().map(|_| value(random, attribute.kind)).collect()
        };
        let values = schema.attributes.iter().map(column).collect();
        Instance { rows: live.iter().map(Vec::len).collect(), links, values }
    }
}

/// An instance with the rows of each table in random order, and for each table
/// the new number of each row.
pub fn shuffled(
    random: &mut Random,
    schema: &Schema,
    old: &Instance,
) -> (Instance, Vec<Vec<usize>>) {
    let order = |&rows: &usize| random.shuffled((0..rows).collect());
    let new_row: Vec<Vec<usize>> = old.rows.iter().map(order).collect();
    let mut new = old.clone();
    for (number, edge) in schema.edges.iter().enumerate() {
        for (&target, &row) in old.links[number].iter().zip(&new_row[edge.source]) {
            new.links[number][row] = new_row[edge.target][target];
        }
    }
    for (number, attribute) in schema.attributes.iter().enumerate() {
        for (&value, &row) in old.values[number].iter().zip(&new_row[attribute.node]) {
            new.values[number][row] = value;
        }
    }
    (new, new_row)
}

/// The rows of one instance and after them those of another; nothing if there
/// would be too many.
pub fn beside(schema: &Schema, one: &Instance, other: &Instance) -> Option<Instance> {
    if one.total_rows() + other.total_rows() > Instance::MOST_ROWS {
        return None;
    }
    let rows = one.rows.iter().zip(&other.rows).map(|(a, b)| a + b).collect();
    let mut links = one.links.clone();
    for (number, edge) in schema.edges.iter().enumerate() {
        let first = one.rows[edge.target];
        links[number].extend(other.links[number].iter().map(|target| first + target));
    }
    let mut values = one.values.clone();
    for (column, more) in values.iter_mut().zip(&other.values) {
        column.extend(more);
    }
    Some(Instance { rows, links, values })
}

/// An instance without rows.
pub fn no_rows(schema: &Schema) -> Instance {
    Instance {
        rows: vec![0; schema.nodes],
        links: vec![vec![]; schema.edges.len()],
        values: vec![vec![]; schema.attributes.len()],
    }
}
