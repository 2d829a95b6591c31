//! Chains of steps that lead from a path to an equal one.

mod sheet;
mod text;

use crate::path::Path;
use crate::schema::Schema;

/// A step: one side of an equation, which stands in a path, is replaced by the
/// other side.
#[derive(Debug, Clone, Copy, PartialEq, Eq)]
pub struct Step {
    /// The equation's number.
    pub equation: usize,
    /// Whether the right side is replaced by the left one, and not the left by
    /// the right.
    pub back: bool,
    /// The links before the replaced part.
    pub before: usize,
}

/// The steps from a path to an equal one.
#[derive(Debug, Clone, Default, PartialEq, Eq)]
pub struct Chain {
    /// The steps in their order.
    pub steps: Vec<Step>,
}

impl Step {
    /// The side that is replaced and the side in its place; none where the
    /// equation is missing.
    pub fn sides<'a>(&self, schema: &'a Schema) -> Option<(&'a Path, &'a Path)> {
        let equation = schema.equations.get(self.equation)?;
        Some(match self.back {
            false => (&equation.left, &equation.right),
            true => (&equation.right, &equation.left),
        })
    }

    /// The path that the step makes of a path; none where the replaced side does
    /// not stand there.
    ///
    /// ```
    /// # let text = "node A\nnode B\nlink A.x -> B\nlink A.y -> B\nequation A.x = A.y\n";
    /// let (schema, _) = sheet::Schema::parse("ruled.schema", text).unwrap();
    /// let path = |text| sheet::Path::parse(&schema, text).unwrap();
    /// let step = sheet::Step { equation: 0, back: false, before: 0 };
    /// assert_eq!(step.made(&schema, &path("A.x")), Some(path("A.y")));
    /// assert_eq!(step.made(&schema, &path("A.y")), None);
    /// ```
    pub fn made(&self, schema: &Schema, path: &Path) -> Option<Path> {
        let (old, new) = self.sides(schema)?;
        let (front, rest) = path.links.split_at_checked(self.before)?;
        let at = Path { start: path.start, links: front.to_vec() }.end(schema);
        let rest = rest.strip_prefix(old.links.as_slice()).filter(|_| at == Some(old.start))?;
        Some(Path { start: path.start, links: [front, &new.links, rest].concat() })
    }
}
