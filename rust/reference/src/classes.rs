//! Classes of equal paths, and the path that stands for each, as request C-14 of
//! document 02 asks: "The path question now takes one path and yields, as a path
//! sheet, the first path equal to it in document 01's order, and two paths are
//! equal by document 01's chains exactly when these answers are the same."

use crate::paths::{all_paths, Path};
use crate::schema::Schema;
use std::collections::{BTreeMap, BTreeSet, VecDeque};

/// The paths equal to one path, itself among them, in the order of paths.
#[derive(Debug, Clone, PartialEq, Eq)]
pub struct Class {
    paths: BTreeSet<Path>,
}

impl Class {
    /// The class of a path of an accepted schema: "Two paths are equal if a
    /// chain of steps leads from one to the other".
    ///
    /// A breadth-first search for all paths that a chain leads to.  The schema
    /// is an accepted one, so there are at most 256 to find.
    pub fn of(schema: &Schema, path: &Path) -> Self {
        let mut paths = BTreeSet::from([path.clone()]);
        let mut waiting = VecDeque::from([path.clone()]);
        while let Some(path) = waiting.pop_front() {
            for (_, next) in path.steps(schema) {
                if paths.insert(next.clone()) {
                    waiting.push_back(next);
                }
            }
        }
        Class { paths }
    }

    /// The class's first path "in document 01's order": "by length, then start
    /// node, then edge numbers from the left".
    pub fn first(&self) -> &Path {
        self.paths.first().expect("a class has a path")
    }
}

/// All paths of an accepted schema, each with the first path of its class, which
/// stands for the class.
pub struct Classes {
    first_of: BTreeMap<Path, Path>,
}

impl Classes {
    /// The classes of an accepted schema, each found once.
    pub fn of(schema: &Schema) -> Self {
        let mut first_of = BTreeMap::new();
        for path in all_paths(schema) {
            if !first_of.contains_key(&path) {
                let class = Class::of(schema, &path);
                let first = class.first();
                first_of.extend(class.paths.iter().map(|same| (same.clone(), first.clone())));
            }
        }
        Classes { first_of }
    }

    /// The first path equal to a path of the schema.
    pub fn first(&self, path: &Path) -> &Path {
        &self.first_of[path]
    }

    /// All paths with start `node`, in their order.
    pub fn from(&self, node: usize) -> impl Iterator<Item = &Path> {
        self.first_of.keys().filter(move |path| path.start == node)
    }
}
