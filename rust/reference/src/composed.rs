//! Request C-17 of document 02, "Two hops or one": "For mappings F from S to T and G
//! from T to U, provide the composed mapping", on the decoded mappings.

use crate::mapping::Mapping;
use crate::schema::Schema;

/// The composed mapping from S to U, of accepted mappings F and G: each node and
/// each attribute goes to its image's image, "each edge going to its image path's
/// images joined".
///
/// They are joined as they are; no first path of a class is chosen.  A path of U
/// has no node twice, since U has no loop, so that an image has at most 15 edges.
pub fn composed(s: &Schema, f: &Mapping, g: &Mapping) -> Mapping {
    let nodes = f.nodes.iter().map(|&d| g.nodes[d]).collect();
    let edges = (0..s.edges.len()).map(|e| g.path_image(&f.edge_image(s, e)).edges).collect();
    let attributes = f.attributes.iter().map(|&b| g.attributes[b]).collect();
    Mapping { nodes, edges, attributes }
}
