//! "Even mapping (demand 3's discrete op-fibration with matching columns): for
//! each node c of S and each path q of T from F(c), trivial ones included,
//! there is a path from c whose image equals q, one only up to equality; and
//! each attribute at F(c) is the image of exactly one attribute at c."

use crate::classes::Classes;
use crate::mapping::Mapping;
use crate::paths::Path;
use crate::schema::Schema;

/// An accepted mapping F of S to T with the classes of equal paths of both.
pub struct Lifting<'a> {
    s: &'a Schema,
    t: &'a Schema,
    f: &'a Mapping,
    s_classes: Classes,
    t_classes: Classes,
}

impl<'a> Lifting<'a> {
    /// The lifting along an accepted mapping between accepted schemas.
    pub fn new(s: &'a Schema, t: &'a Schema, f: &'a Mapping) -> Self {
        Lifting { s, t, f, s_classes: Classes::of(s), t_classes: Classes::of(t) }
    }

    /// Whether the mapping is even.
    pub fn is_even(&self) -> bool {
        (0..self.s.nodes).all(|c| self.lifts_paths(c) && self.matches_columns(c))
    }

    /// Each path of T from F(c) has a lift at c, "one only up to equality".
    fn lifts_paths(&self, c: usize) -> bool {
        let mut targets = self.t_classes.from(self.f.nodes[c]);
        targets.all(|q| {
            let lifts = self.lifts(c, q);
            let same_class = |p: &&Path| self.s_classes.first(p) == self.s_classes.first(lifts[0]);
            !lifts.is_empty() && lifts.iter().all(same_class)
        })
    }

    /// The lifts of q at c: all paths of S from c, whatever their end, whose
    /// image equals q, in the order of paths.
    fn lifts(&self, c: usize, q: &Path) -> Vec<&Path> {
        let first = self.t_classes.first(q);
        let is_lift = |p: &&Path| self.t_classes.first(&self.f.path_image(p)) == first;
        self.s_classes.from(c).filter(is_lift).collect()
    }

    /// "each attribute at F(c) is the image of exactly one attribute at c"
    fn matches_columns(&self, c: usize) -> bool {
        let columns = self.t.attributes_at(self.f.nodes[c]);
        columns.into_iter().all(|b| self.columns_over(c, b).len() == 1)
    }

    /// The attributes at c with the image `b`.
    fn columns_over(&self, c: usize, b: usize) -> Vec<usize> {
        let mut columns = self.s.attributes_at(c);
        columns.retain(|&a| self.f.attributes[a] == b);
        columns
    }

    /// The first of the equal lifts at c of an edge of T from F(c).
    /// The mapping is even.
    pub fn edge_lift(&self, c: usize, edge: usize) -> &Path {
        let lifts = self.lifts(c, &Path::along(self.t, edge));
        lifts.first().expect("along an even mapping each edge has a lift")
    }

    /// The one column at c over an attribute of T at F(c).  The mapping is
    /// even.
    pub fn column_lift(&self, c: usize, attribute: usize) -> usize {
        let columns = self.columns_over(c, attribute);
        *columns.first().expect("along an even mapping each attribute has a column over it")
    }
}
