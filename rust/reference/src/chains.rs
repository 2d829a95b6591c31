//! Chains of steps, request C-11 of document 02: "For two equal paths they want
//! the chain from the first lent path to the second: each step names the
//! equation, the direction (0 left side to right, 1 back) and the number of
//! edges before the replaced part."

use crate::bits::BitWriter;
use crate::paths::Path;
use crate::schema::Schema;
use std::collections::{BTreeMap, BTreeSet};

/// A step by its numbers, and ordered by them as they are written: equation,
/// direction, edges before.
#[derive(Debug, Clone, Copy, PartialEq, Eq, PartialOrd, Ord)]
pub struct Step {
    /// The equation's number.
    pub equation: usize,
    /// "the direction (0 left side to right, 1 back)"
    pub direction: usize,
    /// "the number of edges before the replaced part", in the path as it stands
    /// before the step.
    pub before: usize,
}

/// The steps from one path to another, ordered by all their numbers in a row.
#[derive(Debug, Clone, PartialEq, Eq, PartialOrd, Ord)]
pub struct Chain {
    /// The steps in the order in which they are taken.
    pub steps: Vec<Step>,
}

impl Chain {
    /// The chain from `p` to `q`, two paths of an accepted schema: it "has the
    /// fewest steps possible, at most 255, and among those is the first in the
    /// order of its numbers".  "Unequal paths give "none", and that is given in
    /// no other case."
    ///
    /// From each path the least step that comes one nearer to `q` is taken.
    /// That there are at most 255 needs no test: no path comes twice in a
    /// shortest chain, and an accepted schema has at most 256 paths.
    pub fn between(schema: &Schema, p: &Path, q: &Path) -> Option<Self> {
        let distances = distances_to(schema, q);
        let mut here = p.clone();
        let mut steps = Vec::new();
        for distance in (0..*distances.get(p)?).rev() {
            let (step, next) = first_step(schema, &here, |next| distances[next] == distance);
            steps.push(step);
            here = next;
        }
        Some(Chain { steps })
    }

    /// "It is written as the number of steps in 8 bits, then 5, 1 and 4 bits for
    /// each."  Then come 0 bits to the byte's end.
    pub fn to_sheet(&self) -> Vec<u8> {
        let mut writer = BitWriter::new();
        writer.number(8, self.steps.len());
        for step in &self.steps {
            writer.number(5, step.equation);
            writer.number(1, step.direction);
            writer.number(4, step.before);
        }
        writer.finish()
    }
}

/// The fewest steps from each path equal to `q` to `q`, found level by level.
///
/// The search starts from `q`: the step back is the same equation in the other
/// direction, after as many edges, so a chain is as long as the one back.
fn distances_to(schema: &Schema, q: &Path) -> BTreeMap<Path, usize> {
    let mut distances = BTreeMap::new();
    let mut level = BTreeSet::from([q.clone()]);
    for distance in 0.. {
        if level.is_empty() {
            break;
        }
        let reached = level.iter().flat_map(|path| path.steps(schema)).map(|(_, next)| next);
        let reached: BTreeSet<Path> = reached.collect();
        distances.extend(level.into_iter().map(|path| (path, distance)));
        level = reached.into_iter().filter(|path| !distances.contains_key(path)).collect();
    }
    distances
}

/// The first of the steps on `path` that lead where they should, and the path
/// it leads to.  There is such a step.
fn first_step(schema: &Schema, path: &Path, leads_well: impl Fn(&Path) -> bool) -> (Step, Path) {
    let mut steps = path.steps(schema).into_iter();
    steps.find(|(_, next)| leads_well(next)).expect("a path at a distance has a neighbour nearer")
}
