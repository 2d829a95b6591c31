//! Schema sheets.

use crate::bits::Reader;
use crate::Judged;

const COUNT: u8 = 3;
const STRAY: u8 = 4;
const RING: u8 = 5;
const CROWD: u8 = 6;

/// A link from one node to another.
#[derive(Clone, Copy)]
pub struct Edge {
    pub source: u8,
    pub target: u8,
}

/// A column at a node.
#[derive(Clone, Copy)]
pub struct Attribute {
    pub node: u8,
    pub kind: u8,
}

/// An accepted schema.
pub struct Schema {
    pub nodes: usize,
    pub edges: Vec<Edge>,
    pub attributes: Vec<Attribute>,
    pub equations: Vec<Equation>,
}

/// Start, and the edges of both sides.
pub type Equation = (u8, Vec<u8>, Vec<u8>);

/// A start node and edges, as a sheet has them.
type Side = (u8, Vec<u8>);

impl Schema {
    /// Reads and judges a schema sheet.
    pub fn read(sheet: &[u8]) -> Judged<Self> {
        let mut reader = Reader::new(sheet);
        reader.need(22)?;
        let nodes = reader.take(5) as usize;
        let [edges, attributes, equations] = [6, 5, 6].map(|width| reader.take(width) as usize);
        if nodes == 0 || nodes > 16 || edges > 32 || attributes > 16 || equations > 32 {
            return Err(COUNT);
        }
        reader.need(8 * (edges + attributes))?;
        let pair = |reader: &mut Reader| (reader.take(4) as u8, reader.take(4) as u8);
        let edges: Vec<Edge> = (0..edges)
            .map(|_| pair(&mut reader))
            .map(|(source, target)| Edge { source, target })
            .collect();
        let attributes: Vec<Attribute> = (0..attributes)
            .map(|_| pair(&mut reader))
            .map(|(node, kind)| Attribute { node, kind })
            .collect();
        let sides = (0..2 * equations).map(|_| read_side(&mut reader));
        let sides = sides.collect::<Judged<Vec<Side>>>()?;
        reader.finish()?;
        let equations = joined(nodes, &edges, &attributes, sides).ok_or(STRAY)?;
        if count_paths(nodes, &edges).ok_or(RING)? > 256 {
            return Err(CROWD);
        }
        Ok(Schema { nodes, edges, attributes, equations })
    }
}

fn read_side(reader: &mut Reader) -> Judged<Side> {
    let start = reader.field(4)? as u8;
    Ok((start, read_edges(reader)?))
}

/// A path's length and edges.
pub fn read_edges(reader: &mut Reader) -> Judged<Vec<u8>> {
    let length = reader.field(4)?;
    reader.need(5 * length as usize)?;
    Ok((0..length).map(|_| reader.take(5) as u8).collect())
}

/// The node that edges lead to from a start, if they join.
pub fn end_of(edges: &[Edge], start: u8, path: &[u8]) -> Option<u8> {
    path.iter().try_fold(start, |node, &number| {
        let edge = edges.get(usize::from(number))?;
        (edge.source == node).then_some(edge.target)
    })
}

/// The equations, if nothing in the schema is stray.
fn joined(
    nodes: usize,
    edges: &[Edge],
    attributes: &[Attribute],
    sides: Vec<Side>,
) -> Option<Vec<Equation>> {
    let is_node = |node: u8| usize::from(node) < nodes;
    let fits = edges.iter().all(|edge| is_node(edge.source) && is_node(edge.target))
        && attributes.iter().all(|attribute| is_node(attribute.node));
    if !fits {
        return None;
    }
    let mut equations = Vec::with_capacity(sides.len() / 2);
    let mut sides = sides.into_iter();
    while let (Some((start, left)), Some((other, right))) = (sides.next(), sides.next()) {
        let (one, two) = (end_of(edges, start, &left)?, end_of(edges, other, &right)?);
        if !is_node(start) || start != other || one != two {
            return None;
        }
        equations.push((start, left, right));
    }
    Some(equations)
}

/// The number of paths, cut at a large one; none where there is a loop.
fn count_paths(nodes: usize, edges: &[Edge]) -> Option<u32> {
    let mut waits_for = [0u8; 16];
    edges.iter().for_each(|edge| waits_for[usize::from(edge.source)] += 1);
    let mut from = [1u32; 16];
    let mut done = Vec::with_capacity(nodes);
    done.extend((0..nodes).filter(|&node| waits_for[node] == 0));
    let mut next = 0;
    while let Some(&node) = done.get(next) {
        next += 1;
        for edge in edges.iter().filter(|edge| usize::from(edge.target) == node) {
            let source = usize::from(edge.source);
            from[source] = (from[source] + from[node]).min(1000);
            waits_for[source] -= 1;
            if waits_for[source] == 0 {
                done.push(source);
            }
        }
    }
    (done.len() == nodes).then(|| from[..nodes].iter().sum())
}
