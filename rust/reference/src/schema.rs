//! Schemas: "A schema has nodes (tables), edges (links) and attributes
//! (columns), each numbered from 0, and equations between paths."

use crate::bits::{BitReader, BitWriter};
use crate::paths::Path;
use crate::refusal::{demand, Judged, COUNT, CROWD, RING, STRAY};

/// A link from one node to another.
#[derive(Debug, Clone, Copy, PartialEq, Eq)]
pub struct Edge {
    /// The node whose rows have the link.
    pub source: usize,
    /// The node whose rows the link leads to.
    pub target: usize,
}

/// A column at a node.
#[derive(Debug, Clone, Copy, PartialEq, Eq)]
pub struct Attribute {
    /// The node whose rows have the value.
    pub node: usize,
    /// The kind of its values, 0 to 15.
    pub kind: usize,
}

/// An equation between two paths.
#[derive(Debug, Clone, PartialEq, Eq)]
pub struct Equation {
    /// The first path of the sheet.
    pub left: Path,
    /// The second path of the sheet.
    pub right: Path,
}

/// A decoded schema sheet.
#[derive(Debug, Clone, PartialEq, Eq)]
pub struct Schema {
    /// The number of nodes.
    pub nodes: usize,
    /// The edges by number.
    pub edges: Vec<Edge>,
    /// The attributes by number.
    pub attributes: Vec<Attribute>,
    /// The equations.
    pub equations: Vec<Equation>,
}

impl Edge {
    /// "each edge: source 4, target 4"
    fn read(reader: &mut BitReader) -> Judged<Self> {
        let source = reader.number(4)?;
        let target = reader.number(4)?;
        Ok(Edge { source, target })
    }
}

impl Attribute {
    /// "each attribute: node 4, kind 4"
    fn read(reader: &mut BitReader) -> Judged<Self> {
        let node = reader.number(4)?;
        let kind = reader.number(4)?;
        Ok(Attribute { node, kind })
    }
}

impl Equation {
    /// "each equation: two paths"
    fn read(reader: &mut BitReader) -> Judged<Self> {
        let left = Path::read_field(reader)?;
        let right = Path::read_field(reader)?;
        Ok(Equation { left, right })
    }

    /// Both sides are paths of the schema, with one start and one end.
    fn fits(&self, schema: &Schema) -> bool {
        let end = self.left.end(schema);
        end.is_some() && end == self.right.end(schema) && self.left.start == self.right.start
    }
}

impl Schema {
    /// "1 to 16 nodes"
    pub const MOST_NODES: usize = 16;
    /// "32 edges"
    pub const MOST_EDGES: usize = 32;
    /// "16 attributes"
    pub const MOST_ATTRIBUTES: usize = 16;
    /// "32 equations"
    pub const MOST_EQUATIONS: usize = 32;
    /// "256 paths (trivial ones counted, unequal as lists)"
    pub const MOST_PATHS: u64 = 256;

    /// Decodes and judges a schema sheet: "1 inside the leading counts, 3, 1 in
    /// the rest, 2, then upward from 4".
    pub fn accept(sheet: &[u8]) -> Judged<Self> {
        let schema = Self::read(sheet)?;
        schema.check()?;
        Ok(schema)
    }

    /// "Schema: nodes 5, edges 6, attributes 5, equations 6", then the fields
    /// of each.  Gives 1, 3 and 2.
    fn read(sheet: &[u8]) -> Judged<Self> {
        let mut reader = BitReader::new(sheet);
        let nodes = reader.number(5)?;
        let edges = reader.number(6)?;
        let attributes = reader.number(5)?;
        let equations = reader.number(6)?;
        demand((1..=Self::MOST_NODES).contains(&nodes), COUNT)?;
        demand(edges <= Self::MOST_EDGES, COUNT)?;
        demand(attributes <= Self::MOST_ATTRIBUTES, COUNT)?;
        demand(equations <= Self::MOST_EQUATIONS, COUNT)?;
        let schema = Schema {
            nodes,
            edges: read_all(edges, &mut reader, Edge::read)?,
            attributes: read_all(attributes, &mut reader, Attribute::read)?,
            equations: read_all(equations, &mut reader, Equation::read)?,
        };
        reader.finish()?;
        Ok(schema)
    }

    /// Judges the decoded schema: 4, then 5, then 6.
    fn check(&self) -> Judged<()> {
        demand(self.names_no_stray(), STRAY)?;
        let heights = self.heights().ok_or(RING)?;
        demand(self.count_paths(&heights) <= Self::MOST_PATHS, CROWD)
    }

    /// Every named node and edge is there, every path joins up, and every
    /// equation's sides have one start and one end.
    fn names_no_stray(&self) -> bool {
        let is_node = |node: usize| node < self.nodes;
        self.edges.iter().all(|edge| is_node(edge.source) && is_node(edge.target))
            && self.attributes.iter().all(|attribute| is_node(attribute.node))
            && self.equations.iter().all(|equation| equation.fits(self))
    }

    /// The heights of all nodes; none, as "a schema with a loop has no
    /// heights".
    ///
    /// Each round settles at least the nodes of the next height, so there are
    /// as many rounds as nodes.
    pub fn heights(&self) -> Option<Vec<usize>> {
        let mut heights = vec![None; self.nodes];
        for _ in 0..self.nodes {
            for node in 0..self.nodes {
                heights[node] = self.height(node, &heights);
            }
        }
        heights.into_iter().collect()
    }

    /// "A node's height is one more than the largest height over its edges'
    /// targets, and 0 without edges", once all these heights are known.
    fn height(&self, node: usize, known: &[Option<usize>]) -> Option<usize> {
        let mut height = 0;
        for target in self.targets(node) {
            height = height.max(known[target]? + 1);
        }
        Some(height)
    }

    /// The targets of the edges from `node`.
    fn targets(&self, node: usize) -> impl Iterator<Item = usize> + '_ {
        let from_node = self.edges.iter().filter(move |edge| edge.source == node);
        from_node.map(|edge| edge.target)
    }

    /// The number of paths, "trivial ones counted, unequal as lists", without
    /// listing them: from a node there are the trivial path, and the paths from
    /// each edge's target.
    fn count_paths(&self, heights: &[usize]) -> u64 {
        let mut by_height: Vec<usize> = (0..self.nodes).collect();
        by_height.sort_by_key(|&node| heights[node]);
        let mut counts = vec![0; self.nodes];
        for node in by_height {
            counts[node] = sum(1, self.targets(node).map(|target| counts[target]));
        }
        sum(0, counts.into_iter())
    }

    /// The numbers of the attributes at `node`, ascending.
    pub fn attributes_at(&self, node: usize) -> Vec<usize> {
        let all = 0..self.attributes.len();
        all.filter(|&a| self.attributes[a].node == node).collect()
    }

    /// The numbers of the edges from `node`, ascending.
    pub fn edges_from(&self, node: usize) -> Vec<usize> {
        let all = 0..self.edges.len();
        all.filter(|&e| self.edges[e].source == node).collect()
    }

    /// The numbers of the edges to `node`, ascending.
    pub fn edges_to(&self, node: usize) -> Vec<usize> {
        let all = 0..self.edges.len();
        all.filter(|&e| self.edges[e].target == node).collect()
    }

    /// The schema sheet.  A count or number too large for its field is written
    /// by its low bits.
    pub fn to_sheet(&self) -> Vec<u8> {
        let mut writer = BitWriter::new();
        writer.number(5, self.nodes);
        writer.number(6, self.edges.len());
        writer.number(5, self.attributes.len());
        writer.number(6, self.equations.len());
        for edge in &self.edges {
            writer.number(4, edge.source);
            writer.number(4, edge.target);
        }
        for attribute in &self.attributes {
            writer.number(4, attribute.node);
            writer.number(4, attribute.kind);
        }
        for equation in &self.equations {
            equation.left.write_field(&mut writer);
            equation.right.write_field(&mut writer);
        }
        writer.finish()
    }
}

/// Reads `count` things, one after the other.
fn read_all<T>(
    count: usize,
    reader: &mut BitReader,
    read: fn(&mut BitReader) -> Judged<T>,
) -> Judged<Vec<T>> {
    (0..count).map(|_| read(reader)).collect()
}

/// A sum that stays at the largest number instead of overflowing.
fn sum(first: u64, others: impl Iterator<Item = u64>) -> u64 {
    others.fold(first, u64::saturating_add)
}
