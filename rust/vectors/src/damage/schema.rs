//! Damage to schema sheets: 3 in each count, 4 in each field, 5, 6, and what
//! comes first where two apply.

use crate::build;
use crate::random::Random;
use reference::plain::*;

/// A way to damage a schema sheet.
#[derive(Debug, Clone, Copy, PartialEq, Eq, PartialOrd, Ord)]
pub enum SchemaDamage {
    /// A count of 0 nodes.
    NoNode,
    /// 17 nodes or more.
    ManyNodes,
    /// 33 edges or more.
    ManyEdges,
    /// 17 attributes or more.
    ManyAttributes,
    /// 33 equations or more.
    ManyEquations,
    /// A count beyond its limit in a sheet that ends inside the counts: 1.
    ManyNodesCut,
    /// A count beyond its limit in a sheet without the rest: 3.
    ManyEdgesAlone,
    /// An edge from a missing node.
    StraySource,
    /// An edge to a missing node.
    StrayTarget,
    /// An attribute at a missing node.
    StrayAttribute,
    /// An equation of trivial paths at a missing node.
    StrayStart,
    /// An equation with a missing edge.
    StrayEdge,
    /// An equation with edges that do not join.
    LooseEdges,
    /// An equation whose sides have other starts.
    OtherStart,
    /// An equation whose sides have other ends.
    OtherEnd,
    /// A stray attribute in a schema with a loop: 4.
    StrayAndRing,
    /// An edge from a node to itself.
    SelfLoop,
    /// An edge back along a path.
    Ring,
    /// A loop in a schema with many paths: 5.
    RingAndCrowd,
    /// 257 paths.
    OnePathTooMany,
    /// Paths beyond number.
    ManyPaths,
}

use SchemaDamage::*;

impl SchemaDamage {
    /// All of them.
    pub const ALL: [SchemaDamage; 21] = [
        NoNode,
        ManyNodes,
        ManyEdges,
        ManyAttributes,
        ManyEquations,
        ManyNodesCut,
        ManyEdgesAlone,
        StraySource,
        StrayTarget,
        StrayAttribute,
        StrayStart,
        StrayEdge,
        LooseEdges,
        OtherStart,
        OtherEnd,
        StrayAndRing,
        SelfLoop,
        Ring,
        RingAndCrowd,
        OnePathTooMany,
        ManyPaths,
    ];

    /// The number that the sheet is sent back with.
    pub fn number(self) -> u8 {
        match self {
            ManyNodesCut => 1,
            NoNode | ManyNodes | ManyEdges | ManyAttributes | ManyEquations | ManyEdgesAlone => 3,
            SelfLoop | Ring | RingAndCrowd => 5,
            OnePathTooMany | ManyPaths => 6,
            _ => 4,
        }
    }

    /// The damaged sheet.
    pub fn done_to(self, random: &mut Random, schema: &Schema) -> Option<Vec<u8>> {
        let mut sheet = schema.to_sheet();
        match self {
            NoNode => put(&mut sheet, 0, 5, 0),
            ManyNodes => put(&mut sheet, 0, 5, 17 + random.below(15)),
            ManyEdges => put(&mut sheet, 5, 6, 33 + random.below(31)),
            ManyAttributes => put(&mut sheet, 11, 5, 17 + random.below(15)),
            ManyEquations => put(&mut sheet, 16, 6, 33 + random.below(31)),
            ManyNodesCut => {
                put(&mut sheet, 0, 5, 17 + random.below(15));
                sheet.truncate(1 + random.below(2));
            }
            ManyEdgesAlone => {
                put(&mut sheet, 5, 6, 33);
                sheet.truncate(3);
            }
            SelfLoop | Ring | RingAndCrowd | OnePathTooMany | ManyPaths => {
                return within_counts(self.looped(random, schema.clone())?);
            }
            StrayStart | StrayEdge | LooseEdges | OtherStart | OtherEnd => {
                let mut schema = schema.clone();
                let equation = self.equation(random, &schema)?;
                schema.equations.push(equation);
                return within_counts(schema);
            }
            _ => return within_counts(self.stray(random, schema.clone())?),
        }
        Some(sheet)
    }

    /// The schema with an edge or an attribute at a missing node.
    fn stray(self, random: &mut Random, mut schema: Schema) -> Option<Schema> {
        let node = random.any_in(schema.nodes..16)?;
        match self {
            StraySource => {
                let edge = any_edge(random, &schema)?;
                schema.edges[edge].source = node;
            }
            StrayTarget => {
                let edge = any_edge(random, &schema)?;
                schema.edges[edge].target = node;
            }
            _ => schema.attributes.push(Attribute { node, kind: random.below(16) }),
        }
        if self == StrayAndRing {
            schema.edges.push(Edge { source: 0, target: 0 });
        }
        Some(schema)
    }

    /// An equation that is stray in the schema.
    fn equation(self, random: &mut Random, schema: &Schema) -> Option<Equation> {
        let same = |start: usize, edges: &[usize]| build::equation(start, edges, edges);
        match self {
            StrayStart => Some(same(random.any_in(schema.nodes..16)?, &[])),
            StrayEdge => {
                let edge = random.any_in(schema.edges.len()..32)?;
                Some(same(random.below(schema.nodes), &[edge]))
            }
            LooseEdges => {
                let (one, other) = (any_edge(random, schema)?, any_edge(random, schema)?);
                let joined = schema.edges[one].target == schema.edges[other].source;
                (!joined).then(|| same(schema.edges[one].source, &[one, other]))
            }
            OtherStart => {
                let one = any_edge(random, schema)?;
                let Edge { source, target } = schema.edges[one];
                let other =
                    schema.edges.iter().position(|e| e.target == target && e.source != source)?;
                let (left, right) = (Path::along(schema, one), Path::along(schema, other));
                Some(Equation { left, right })
            }
            _ => {
                let edge = any_edge(random, schema)?;
                Some(build::equation(schema.edges[edge].source, &[edge], &[]))
            }
        }
    }

    /// A schema with a loop, or with too many paths.
    fn looped(self, random: &mut Random, mut schema: Schema) -> Option<Schema> {
        match self {
            SelfLoop => {
                let node = random.below(schema.nodes);
                schema.edges.push(Edge { source: node, target: node });
            }
            Ring => {
                let mut long = reference::paths::all_paths(&schema);
                long.retain(|path| !path.edges.is_empty());
                let path = random.any_of(&long)?;
                schema.edges.push(Edge { source: path.end(&schema)?, target: path.start });
            }
            RingAndCrowd => {
                schema = build::doubled_chain(16);
                schema.edges.push(Edge { source: 15, target: random.below(16) });
            }
            OnePathTooMany => {
                schema = build::doubled_chain(7);
                schema.nodes = 16;
                schema.edges.push(Edge { source: 7, target: 8 });
            }
            _ => schema = build::doubled_chain(10 + random.below(7)),
        }
        Some(schema)
    }
}

/// The schema's sheet, if its counts are within their limits.
fn within_counts(schema: Schema) -> Option<Vec<u8>> {
    let within = schema.edges.len() <= Schema::MOST_EDGES
        && schema.attributes.len() <= Schema::MOST_ATTRIBUTES
        && schema.equations.len() <= Schema::MOST_EQUATIONS;
    within.then(|| schema.to_sheet())
}

/// The number of an edge.
fn any_edge(random: &mut Random, schema: &Schema) -> Option<usize> {
    random.any_in(0..schema.edges.len())
}

/// Writes a field over what stands at a bit position.
fn put(sheet: &mut [u8], position: usize, width: usize, value: usize) {
    for place in 0..width {
        let (bit, mask) = (position + place, 0x80 >> ((position + place) % 8));
        match value >> (width - 1 - place) & 1 {
            0 => sheet[bit / 8] &= !mask,
            _ => sheet[bit / 8] |= mask,
        }
    }
}
