//! Mapping sheets, and evenness.

use crate::bits::Reader;
use crate::paths::Paths;
use crate::schema::{end_of, read_edges, Equation, Schema};
use crate::Judged;

const MISFIT: u8 = 7;
const BROKEN_RULE: u8 = 8;

/// An accepted schema with its paths.
pub struct Side {
    pub schema: Schema,
    pub paths: Paths,
}

impl Side {
    pub fn of(schema: Schema) -> Self {
        let paths = Paths::of(&schema);
        Side { schema, paths }
    }
}

/// An accepted mapping.
pub struct Mapping {
    pub nodes: Vec<u8>,
    attributes: Vec<u8>,
    /// By path of S: the number of its image among the paths of T.
    images: Vec<u8>,
}

/// By node c of S and class of T: the first path from c whose image is in it.
pub struct Lifts {
    first: Vec<[u16; 256]>,
}

const NONE: u16 = u16::MAX;

impl Mapping {
    /// Reads and judges a mapping sheet.
    pub fn read(s: &Side, t: &Side, sheet: &[u8]) -> Judged<Self> {
        let (Side { schema: s, paths: s_paths }, Side { schema: t, paths: t_paths }) = (s, t);
        let mut reader = Reader::new(sheet);
        reader.need(4 * s.nodes)?;
        let nodes: Vec<u8> = (0..s.nodes).map(|_| reader.take(4) as u8).collect();
        let edges = s.edges.iter().map(|_| read_edges(&mut reader));
        let edges = edges.collect::<Judged<Vec<Vec<u8>>>>()?;
        reader.need(4 * s.attributes.len())?;
        let attributes: Vec<u8> = s.attributes.iter().map(|_| reader.take(4) as u8).collect();
        reader.finish()?;
        let image = |node: u8| nodes[usize::from(node)];
        let fits = nodes.iter().all(|&node| usize::from(node) < t.nodes)
            && s.edges.iter().zip(&edges).all(|(edge, path)| {
                end_of(&t.edges, image(edge.source), path) == Some(image(edge.target))
            })
            && s.attributes.iter().zip(&attributes).all(|(here, &there)| {
                let there = t.attributes.get(usize::from(there));
                there.is_some_and(|b| b.kind == here.kind && b.node == image(here.node))
            });
        if !fits {
            return Err(MISFIT);
        }
        let images = images(s, s_paths, t_paths, &nodes, &edges);
        let class = |start: u8, path: &[u8]| {
            let path = s_paths.along(usize::from(start), path);
            t_paths.class[usize::from(images[path])]
        };
        let kept = |(start, left, right): &Equation| class(*start, left) == class(*start, right);
        if !s.equations.iter().all(kept) {
            return Err(BROKEN_RULE);
        }
        Ok(Mapping { nodes, attributes, images })
    }

    /// The lifts of all paths, if the mapping is even.
    pub fn lifts(&self, s: &Side, t: &Side) -> Option<Lifts> {
        let (Side { schema: s, paths: s_paths }, Side { schema: t, paths: t_paths }) = (s, t);
        let mut first = vec![[NONE; 256]; s.nodes];
        for path in 0..s_paths.len() {
            let class = t_paths.class[usize::from(self.images[path])];
            let place = &mut first[usize::from(s_paths.start[path])][usize::from(class)];
            if *place == NONE {
                *place = path as u16;
            } else if s_paths.class[usize::from(*place)] != s_paths.class[path] {
                return None;
            }
        }
        for (c, &d) in self.nodes.iter().enumerate() {
            let mut paths = (0..t_paths.len()).filter(|&q| t_paths.start[q] == d);
            if paths.any(|q| first[c][usize::from(t_paths.class[q])] == NONE) {
                return None;
            }
            let mut columns = (0..t.attributes.len()).filter(|&b| t.attributes[b].node == d);
            if columns.any(|b| self.columns_over(s, c, b).count() != 1) {
                return None;
            }
        }
        Some(Lifts { first })
    }

    /// The columns at c over a column of T.
    pub fn columns_over<'a>(
        &'a self,
        s: &'a Schema,
        c: usize,
        b: usize,
    ) -> impl Iterator<Item = usize> + 'a {
        (0..s.attributes.len()).filter(move |&a| {
            usize::from(s.attributes[a].node) == c && usize::from(self.attributes[a]) == b
        })
    }

    /// The nodes over a node of T.
    pub fn fibre(&self, d: u8) -> impl Iterator<Item = usize> + '_ {
        (0..self.nodes.len()).filter(move |&c| self.nodes[c] == d)
    }
}

impl Lifts {
    /// The path of S at c over an edge of T.
    pub fn over(&self, t: &Side, c: usize, edge: u8) -> usize {
        let source = t.schema.edges[usize::from(edge)].source;
        let class = t.paths.class[t.paths.along(usize::from(source), &[edge])];
        usize::from(self.first[c][usize::from(class)])
    }
}

/// The image of every path.
fn images(
    s: &Schema,
    s_paths: &Paths,
    t_paths: &Paths,
    nodes: &[u8],
    edges: &[Vec<u8>],
) -> Vec<u8> {
    let mut images = nodes.to_vec();
    images.reserve(s_paths.len());
    for path in s.nodes..s_paths.len() {
        let (before, edge) = s_paths.without_last[path];
        let image = usize::from(images[usize::from(before)]);
        images.push(t_paths.along(image, &edges[usize::from(edge)]) as u8);
    }
    images
}
