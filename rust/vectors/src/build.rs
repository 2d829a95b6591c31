//! Short ways to write down schemas, mappings and instances.

use reference::plain::*;

/// The bytes that a text of hexadecimal numbers names.
pub fn hex(text: &str) -> Vec<u8> {
    let numbers = text.split_whitespace();
    numbers.map(|number| u8::from_str_radix(number, 16).expect("a hexadecimal byte")).collect()
}

/// A schema without attributes and equations.
pub fn graph(nodes: usize, edges: &[(usize, usize)]) -> Schema {
    let edges = edges.iter().map(|&(source, target)| Edge { source, target }).collect();
    Schema { nodes, edges, attributes: vec![], equations: vec![] }
}

/// A chain of doubled edges: node n has 2 to the power of (nodes - 1 - n) paths
/// to the last node.
pub fn doubled_chain(nodes: usize) -> Schema {
    let edges: Vec<(usize, usize)> = (1..nodes).flat_map(|n| [(n - 1, n); 2]).collect();
    graph(nodes, &edges)
}

/// A path.
pub fn path(start: usize, edges: &[usize]) -> Path {
    Path { start, edges: edges.to_vec() }
}

/// An equation between two paths with one start.
pub fn equation(start: usize, left: &[usize], right: &[usize]) -> Equation {
    Equation { left: path(start, left), right: path(start, right) }
}

/// A mapping without attributes.
pub fn mapping(nodes: &[usize], edges: &[&[usize]]) -> Mapping {
    let edges = edges.iter().map(|edges| edges.to_vec()).collect();
    Mapping { nodes: nodes.to_vec(), edges, attributes: vec![] }
}

/// The mapping of a schema to itself that changes nothing.
pub fn identity(s: &Schema) -> Mapping {
    Mapping {
        nodes: (0..s.nodes).collect(),
        edges: (0..s.edges.len()).map(|edge| vec![edge]).collect(),
        attributes: (0..s.attributes.len()).collect(),
    }
}

/// An instance without attributes.
pub fn instance(rows: &[usize], links: &[&[usize]]) -> Instance {
    let links = links.iter().map(|targets| targets.to_vec()).collect();
    Instance { rows: rows.to_vec(), links, values: vec![] }
}

/// A matching sheet with these partners, whatever their tables.
pub fn list(partners: &[usize]) -> Vec<u8> {
    Matching { partners: vec![partners.to_vec()] }.to_sheet()
}
