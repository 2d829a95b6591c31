//! Mappings of a schema S to a schema T.

mod sheet;
mod text;

use crate::path::Path;
use crate::schema::Schema;

/// A mapping of S to T: the image of each node, link and column of S.
#[derive(Debug, Clone, Default, PartialEq, Eq)]
pub struct Mapping {
    /// Each node's image.
    pub nodes: Vec<usize>,
    /// Each link's image: the links of a path of T from the image of the link's
    /// source.
    pub links: Vec<Vec<usize>>,
    /// Each column's image.
    pub columns: Vec<usize>,
}

impl Mapping {
    /// The image of a link of S, a path of T.  None where the link or its
    /// source has no image.
    pub fn link_image(&self, s: &Schema, link: usize) -> Option<Path> {
        let start = *self.nodes.get(s.links.get(link)?.source)?;
        Some(Path { start, links: self.links.get(link)?.clone() })
    }

    /// The image of a path of S: the images of its links, one after the other.
    /// None where one of them has no image.
    pub fn path_image(&self, path: &Path) -> Option<Path> {
        let mut image = Path::trivial(*self.nodes.get(path.start)?);
        for &link in &path.links {
            image.links.extend(self.links.get(link)?);
        }
        Some(image)
    }

    /// The nodes of S with this image, ascending.
    pub fn fibre(&self, image: usize) -> Vec<usize> {
        (0..self.nodes.len()).filter(|&node| self.nodes[node] == image).collect()
    }

    /// The columns of S with this image, ascending.
    pub fn columns_over(&self, image: usize) -> Vec<usize> {
        (0..self.columns.len()).filter(|&column| self.columns[column] == image).collect()
    }
}
