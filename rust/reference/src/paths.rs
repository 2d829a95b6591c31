//! Paths and the steps on them: "A path is a start node and a list of edges that
//! join up; length 0 is the trivial path."

use crate::bits::{BitReader, BitWriter};
use crate::chains::Step;
use crate::classes::Class;
use crate::refusal::{Judged, STRAY};
use crate::schema::{Equation, Schema};
use std::cmp::Ordering;

/// A start node and a list of edges; a path of a schema if they join up there.
#[derive(Debug, Clone, PartialEq, Eq)]
pub struct Path {
    /// The start node.
    pub start: usize,
    /// The edges' numbers from the left.
    pub edges: Vec<usize>,
}

/// "Paths are ordered by length, then start node, then edge numbers from the
/// left."
impl Ord for Path {
    fn cmp(&self, other: &Self) -> Ordering {
        let by_length = self.edges.len().cmp(&other.edges.len());
        let by_start = self.start.cmp(&other.start);
        by_length.then(by_start).then_with(|| self.edges.cmp(&other.edges))
    }
}

impl PartialOrd for Path {
    fn partial_cmp(&self, other: &Self) -> Option<Ordering> {
        Some(self.cmp(other))
    }
}

impl Path {
    /// The path of length 0 at `node`.
    pub fn trivial(node: usize) -> Self {
        Path { start: node, edges: Vec::new() }
    }

    /// The path of length 1 along an edge of `schema`.
    pub fn along(schema: &Schema, edge: usize) -> Self {
        Path { start: schema.edges[edge].source, edges: vec![edge] }
    }

    /// This path followed by the edges of `next`.
    pub fn followed_by(&self, next: &Path) -> Self {
        let mut edges = self.edges.clone();
        edges.extend(&next.edges);
        Path { start: self.start, edges }
    }

    /// The end node; none if the path "names a missing node or edge" or its
    /// "edges do not join".
    pub fn end(&self, schema: &Schema) -> Option<usize> {
        let mut node = self.start;
        for &number in &self.edges {
            let edge = schema.edges.get(number)?;
            if edge.source != node {
                return None;
            }
            node = edge.target;
        }
        (self.start < schema.nodes && node < schema.nodes).then_some(node)
    }

    /// Decodes and judges a path sheet over an accepted schema: 1, 2, 4.
    pub fn accept(schema: &Schema, sheet: &[u8]) -> Judged<Self> {
        let mut reader = BitReader::new(sheet);
        let path = Path::read_field(&mut reader)?;
        reader.finish()?;
        path.end(schema).ok_or(STRAY)?;
        Ok(path)
    }

    /// "Path: start 4, length 4, edges 5 each."
    pub(crate) fn read_field(reader: &mut BitReader) -> Judged<Self> {
        let start = reader.number(4)?;
        let edges = read_edges(reader)?;
        Ok(Path { start, edges })
    }

    /// Writes the path's fields.
    pub(crate) fn write_field(&self, writer: &mut BitWriter) {
        writer.number(4, self.start);
        write_edges(writer, &self.edges);
    }

    /// The path sheet.  A number too large for its field is written by its low
    /// bits.
    pub fn to_sheet(&self) -> Vec<u8> {
        let mut writer = BitWriter::new();
        self.write_field(&mut writer);
        writer.finish()
    }

    /// The node that the path has reached after `place` of its edges.
    fn node_after(&self, schema: &Schema, place: usize) -> usize {
        match place {
            0 => self.start,
            _ => schema.edges[self.edges[place - 1]].target,
        }
    }

    /// Whether `side` stands inside this path after `place` of its edges.
    fn has_inside(&self, schema: &Schema, place: usize, side: &Path) -> bool {
        self.node_after(schema, place) == side.start && self.edges[place..].starts_with(&side.edges)
    }

    /// This path with `new` in the stead of `old`, which stands after `place`
    /// of its edges.
    fn replaced(&self, place: usize, old: &Path, new: &Path) -> Path {
        let mut edges = self.edges[..place].to_vec();
        edges.extend(&new.edges);
        edges.extend(&self.edges[place + old.edges.len()..]);
        Path { start: self.start, edges }
    }

    /// The steps on this path in the order of their numbers, each with the path
    /// that it leads to: "a step replaces one side of an equation, inside a
    /// path, by its other side."
    pub fn steps(&self, schema: &Schema) -> Vec<(Step, Path)> {
        let mut found = Vec::new();
        for (equation, Equation { left, right }) in schema.equations.iter().enumerate() {
            for (direction, old, new) in [(0, left, right), (1, right, left)] {
                for before in 0..=self.edges.len() {
                    if self.has_inside(schema, before, old) {
                        let step = Step { equation, direction, before };
                        found.push((step, self.replaced(before, old, new)));
                    }
                }
            }
        }
        found
    }

    /// The first path equal to this one, a path of an accepted schema.  "two
    /// paths are equal by document 01's chains exactly when these answers are
    /// the same".
    pub fn first_equal(&self, schema: &Schema) -> Path {
        Class::of(schema, self).first().clone()
    }
}

/// A path's "length 4, edges 5 each", without its start.
pub(crate) fn read_edges(reader: &mut BitReader) -> Judged<Vec<usize>> {
    let length = reader.number(4)?;
    reader.numbers(length, 5)
}

/// Writes "length 4, edges 5 each".
pub(crate) fn write_edges(writer: &mut BitWriter, edges: &[usize]) {
    writer.number(4, edges.len());
    for &edge in edges {
        writer.number(5, edge);
    }
}

/// All paths of an accepted schema in their order, "trivial ones counted,
/// unequal as lists".
pub fn all_paths(schema: &Schema) -> Vec<Path> {
    let mut paths = Vec::new();
    let mut longest: Vec<Path> = (0..schema.nodes).map(Path::trivial).collect();
    while !longest.is_empty() {
        let longer = longest.iter().flat_map(|path| extensions(schema, path)).collect();
        paths.append(&mut longest);
        longest = longer;
    }
    paths
}

/// The paths with one edge more, by ascending last edge.
fn extensions(schema: &Schema, path: &Path) -> Vec<Path> {
    let end = path.node_after(schema, path.edges.len());
    let last_edges = schema.edges_from(end).into_iter();
    last_edges.map(|edge| path.followed_by(&Path::along(schema, edge))).collect()
}
