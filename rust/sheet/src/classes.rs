//! All paths of a schema, which of them are equal, and by which steps.

use crate::chain::Chain;
use crate::path::Path;
use crate::schema::Schema;
use std::collections::BTreeMap;

/// All paths of a schema in their order; none where they are more than a schema
/// may have.
pub fn all_paths(schema: &Schema) -> Option<Vec<Path>> {
    let mut paths = Vec::new();
    let mut longest: Vec<Path> = (0..schema.nodes.len()).map(Path::trivial).collect();
    while !longest.is_empty() {
        let mut longer = Vec::new();
        for path in &longest {
            let end = path.end(schema)?;
            longer.extend(schema.links_from(end).into_iter().map(|link| path.along(link)));
            if longer.len() > Schema::MOST_PATHS {
                return None;
            }
        }
        paths.append(&mut longest);
        if paths.len() > Schema::MOST_PATHS {
            return None;
        }
        longest = longer;
    }
    Some(paths)
}

/// The paths of an accepted schema in their order, each with the first path that
/// is equal to it, as the proved call gives it.
pub(crate) struct Classes {
    firsts: BTreeMap<Path, Path>,
}

impl Classes {
    /// The classes of a schema with its sheet; none where the sheet is not
    /// accepted.
    pub(crate) fn of(schema: &Schema, sheet: &[u8]) -> Option<Self> {
        let paths = all_paths(schema)?.into_iter();
        let firsts = paths.map(|path| first_path(sheet, &path).map(|first| (path, first)));
        Some(Classes { firsts: firsts.collect::<Option<_>>()? })
    }

    /// The first path that is equal to a path.
    pub(crate) fn first(&self, path: &Path) -> Option<&Path> {
        self.firsts.get(path)
    }

    /// The other paths that are equal to a path, in order.
    pub(crate) fn others<'a>(&'a self, path: &'a Path) -> impl Iterator<Item = &'a Path> {
        let first = self.first(path);
        let is_other = move |other: &&Path| *other != path && self.first(other) == first;
        self.firsts.keys().filter(is_other)
    }

    /// The paths with this start that are the first of their class, in order.
    pub(crate) fn firsts_from(&self, start: usize) -> impl Iterator<Item = &Path> {
        let of_class = self.firsts.iter().filter(|(path, first)| path == first);
        of_class.map(|(path, _)| path).filter(move |path| path.start == start)
    }
}

/// The proved answer to which path is the first one equal to a path.
fn first_path(sheet: &[u8], path: &Path) -> Option<Path> {
    let first = migration::first_path(sheet, &path.to_sheet().ok()?).ok()?;
    Path::from_sheet(&first).ok()
}

/// The proved answer to which steps lead from a path to an equal one.
pub(crate) fn chain(sheet: &[u8], p: &Path, q: &Path) -> Option<Chain> {
    let (p, q) = (p.to_sheet().ok()?, q.to_sheet().ok()?);
    let written = migration::path_chain(sheet, &p, &q).ok()??;
    Chain::from_sheet(&written).ok()
}
