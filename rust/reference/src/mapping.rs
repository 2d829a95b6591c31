//! Mappings of a schema S to a schema T.

use crate::bits::{BitReader, BitWriter};
use crate::paths::{read_edges, write_edges, Path};
use crate::refusal::{demand, Judged, BROKEN_RULE, MISFIT};
use crate::schema::Schema;

/// A decoded mapping sheet.
#[derive(Debug, Clone, PartialEq, Eq)]
pub struct Mapping {
    /// Each node's image.
    pub nodes: Vec<usize>,
    /// Each edge's image, the edges of a path "starting at the image of the
    /// edge's source".
    pub edges: Vec<Vec<usize>>,
    /// Each attribute's image.
    pub attributes: Vec<usize>,
}

impl Mapping {
    /// Decodes and judges a mapping sheet between accepted schemas: 1, 2, 7, 8.
    pub fn accept(s: &Schema, t: &Schema, sheet: &[u8]) -> Judged<Self> {
        let mapping = Self::read(s, sheet)?;
        demand(mapping.fits(s, t), MISFIT)?;
        demand(mapping.keeps_equations(s, t), BROKEN_RULE)?;
        Ok(mapping)
    }

    /// "Mapping S to T: each node's image 4; each edge's image as length 4 and
    /// edges 5 each, starting at the image of the edge's source; each
    /// attribute's image 4."
    fn read(s: &Schema, sheet: &[u8]) -> Judged<Self> {
        let mut reader = BitReader::new(sheet);
        let nodes = reader.numbers(s.nodes, 4)?;
        let edges = s.edges.iter().map(|_| read_edges(&mut reader)).collect::<Judged<_>>()?;
        let attributes = reader.numbers(s.attributes.len(), 4)?;
        reader.finish()?;
        Ok(Mapping { nodes, edges, attributes })
    }

    /// No image "is missing in T, does not join, has the wrong end", nor has an
    /// attribute's image "another kind" or "another node than its node's
    /// image".
    fn fits(&self, s: &Schema, t: &Schema) -> bool {
        self.nodes.iter().all(|&image| image < t.nodes)
            && (0..s.edges.len()).all(|edge| self.edge_fits(s, t, edge))
            && (0..s.attributes.len()).all(|attribute| self.attribute_fits(s, t, attribute))
    }

    fn edge_fits(&self, s: &Schema, t: &Schema, edge: usize) -> bool {
        let end = self.nodes[s.edges[edge].target];
        self.edge_image(s, edge).end(t) == Some(end)
    }

    fn attribute_fits(&self, s: &Schema, t: &Schema, attribute: usize) -> bool {
        let here = &s.attributes[attribute];
        match t.attributes.get(self.attributes[attribute]) {
            Some(there) => there.kind == here.kind && there.node == self.nodes[here.node],
            None => false,
        }
    }

    /// No "equation of S has unequal images in T": the first paths equal to its
    /// sides' images are the same.
    fn keeps_equations(&self, s: &Schema, t: &Schema) -> bool {
        s.equations.iter().all(|equation| {
            let left = self.path_image(&equation.left);
            let right = self.path_image(&equation.right);
            left.first_equal(t) == right.first_equal(t)
        })
    }

    /// The image of an edge of S, a path of T.
    pub fn edge_image(&self, s: &Schema, edge: usize) -> Path {
        self.path_image(&Path::along(s, edge))
    }

    /// The image of a path of S: the images of its edges, one after the other.
    pub fn path_image(&self, path: &Path) -> Path {
        let images = path.edges.iter().map(|&edge| &self.edges[edge]);
        Path { start: self.nodes[path.start], edges: images.flatten().copied().collect() }
    }

    /// The fibre over `d`: "all c with F(c) = d, c ascending".
    pub fn fibre(&self, d: usize) -> Vec<usize> {
        (0..self.nodes.len()).filter(|&c| self.nodes[c] == d).collect()
    }

    /// The attributes of S with the image `b`.
    pub fn attributes_over(&self, b: usize) -> Vec<usize> {
        (0..self.attributes.len()).filter(|&a| self.attributes[a] == b).collect()
    }

    /// Whether the attribute mapping is a bijection of all attributes of S and
    /// all attributes of T.
    pub fn pairs_attributes(&self, t: &Schema) -> bool {
        (0..t.attributes.len()).all(|b| self.attributes_over(b).len() == 1)
    }

    /// The mapping sheet.  A number too large for its field is written by its
    /// low bits.
    pub fn to_sheet(&self) -> Vec<u8> {
        let mut writer = BitWriter::new();
        for &image in &self.nodes {
            writer.number(4, image);
        }
        for image in &self.edges {
            write_edges(&mut writer, image);
        }
        for &image in &self.attributes {
            writer.number(4, image);
        }
        writer.finish()
    }
}
