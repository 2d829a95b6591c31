//! Damage to path sheets: 4.

use crate::random::Random;
use reference::plain::*;

/// A way to damage a path sheet.
#[derive(Debug, Clone, Copy, PartialEq, Eq, PartialOrd, Ord)]
pub enum PathDamage {
    /// A path from a missing node.
    StartMissing,
    /// A path along a missing edge.
    EdgeMissing,
    /// A path whose first edge starts elsewhere.
    OtherStart,
    /// A path whose edges do not join.
    LooseEdges,
    /// A path of 15 edges.
    LongPath,
}

use PathDamage::*;

impl PathDamage {
    /// All of them.
    pub const ALL: [PathDamage; 5] = [StartMissing, EdgeMissing, OtherStart, LooseEdges, LongPath];

    /// The damaged sheet.
    pub fn done_to(self, random: &mut Random, schema: &Schema, path: &Path) -> Option<Vec<u8>> {
        let mut path = path.clone();
        let edge = |random: &mut Random| random.any_in(0..schema.edges.len());
        match self {
            StartMissing => {
                path.start = random.any_in(schema.nodes..16)?;
                path.edges.truncate(random.below(2));
            }
            EdgeMissing => {
                path.edges.truncate(14);
                path.edges.push(random.any_in(schema.edges.len()..32)?);
            }
            OtherStart => {
                let edge = edge(random)?;
                let mut nodes: Vec<usize> = (0..schema.nodes).collect();
                nodes.retain(|&node| node != schema.edges[edge].source);
                path = Path { start: random.any_of(&nodes)?, edges: vec![edge] };
            }
            LooseEdges => {
                path.edges.truncate(14);
                path.edges.push(edge(random)?);
            }
            LongPath => {
                let start = random.below(schema.nodes);
                path = Path { start, edges: vec![edge(random)?; 15] };
            }
        }
        path.end(schema).is_none().then(|| path.to_sheet())
    }
}
