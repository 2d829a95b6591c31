//! All paths of a schema in their order, and their classes.

use crate::schema::{Equation, Schema};

/// At most 256 paths; the trivial path at a node has the node's number.
pub struct Paths {
    /// By path: its first node.
    pub start: Vec<u8>,
    /// By path: its last node.
    pub end: Vec<u8>,
    /// By path that is not trivial: the path without its last edge, and that
    /// edge.
    pub without_last: Vec<(u8, u8)>,
    /// By path: the number of its first extension; the others follow.
    first_child: Vec<u16>,
    /// By edge: its rank among the edges from its source.
    rank: Vec<u8>,
    /// By node: the number of edges that leave it.
    leaving: Vec<u8>,
    /// By path: the first path that equals it.
    pub class: Vec<u8>,
}

impl Paths {
    /// The paths of an accepted schema.
    pub fn of(schema: &Schema) -> Self {
        let Schema { nodes, edges, .. } = schema;
        let nodes = *nodes;
        let mut leaving = vec![0u8; nodes];
        let mut rank = Vec::with_capacity(edges.len());
        for edge in edges {
            let count = &mut leaving[usize::from(edge.source)];
            rank.push(*count);
            *count += 1;
        }
        let mut from: Vec<Vec<u8>> = vec![Vec::new(); nodes];
        for (number, edge) in edges.iter().enumerate() {
            from[usize::from(edge.source)].push(number as u8);
        }
        let mut start: Vec<u8> = (0..nodes as u8).collect();
        start.reserve(256);
        let mut end = start.clone();
        end.reserve(256);
        let mut without_last: Vec<(u8, u8)> = vec![(0, 0); nodes];
        let mut first_child = Vec::with_capacity(256);
        let mut path = 0;
        while path < end.len() {
            first_child.push(end.len() as u16);
            for &edge in &from[usize::from(end[path])] {
                start.push(start[path]);
                end.push(edges[usize::from(edge)].target);
                without_last.push((path as u8, edge));
            }
            path += 1;
        }
        let class = (0..end.len()).map(|path| path as u8).collect();
        let mut paths = Paths { start, end, without_last, first_child, rank, leaving, class };
        paths.equate(&schema.equations);
        paths
    }

    pub fn len(&self) -> usize {
        self.end.len()
    }

    /// A path followed by edges that join it.
    pub fn along(&self, path: usize, edges: &[u8]) -> usize {
        edges.iter().fold(path, |path, &edge| {
            usize::from(self.first_child[path]) + usize::from(self.rank[usize::from(edge)])
        })
    }

    /// The edges of a path.
    pub fn edges(&self, nodes: usize, mut path: usize) -> Vec<u8> {
        let mut edges = Vec::new();
        while path >= nodes {
            let (before, edge) = self.without_last[path];
            edges.push(edge);
            path = usize::from(before);
        }
        edges.reverse();
        edges
    }

    /// Joins the classes of what equations make equal: each pair with every path
    /// before it, and whatever follows a pair that was joined.
    fn equate(&mut self, equations: &[Equation]) {
        let mut waiting: Vec<(usize, usize)> = Vec::new();
        for (start, left, right) in equations {
            for before in 0..self.len() {
                if self.end[before] == *start {
                    waiting.push((self.along(before, left), self.along(before, right)));
                }
            }
            while let Some((one, other)) = waiting.pop() {
                let (a, b) = (self.find(one), self.find(other));
                if a == b {
                    continue;
                }
                self.class[a.max(b)] = a.min(b) as u8;
                for more in 0..usize::from(self.leaving[usize::from(self.end[one])]) {
                    let [one, other] = [one, other].map(|p| usize::from(self.first_child[p]));
                    waiting.push((one + more, other + more));
                }
            }
        }
        for path in 0..self.len() {
            self.class[path] = self.find(path) as u8;
        }
    }

    fn find(&self, mut path: usize) -> usize {
        while usize::from(self.class[path]) != path {
            path = usize::from(self.class[path]);
        }
        path
    }
}
