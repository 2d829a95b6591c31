//! Chains with names, one line a step:
//!
//! ```text
//! 1  Anomaly.[joint.upstream] = Anomaly.[reference]  equation 0, left to right (book.schema line 9)
//! ```

use super::{Chain, Step};
use crate::lent::LentSchema;
use crate::path::Path;
use crate::schema::Schema;

impl Chain {
    /// The steps from a path on, each with the path before and after it, where
    /// brackets mark what is replaced and what stands in its place.  None where a
    /// step is none of this path.
    ///
    /// ```
    /// # let text = "node A\nnode B\nlink A.x -> B\nlink A.y -> B\nequation A.x = A.y\n";
    /// let over = sheet::LentSchema::from_text("ruled.schema", text).unwrap();
    /// let from = sheet::Path { start: 0, links: vec![1] };
    /// let chain = sheet::Chain::from_sheet(&[0x01, 0x04, 0x00]).unwrap();
    /// let lines = chain.to_lines(&over, &from).unwrap();
    /// assert_eq!(lines, ["1  A.[y] = A.[x]  equation 0, right to left (ruled.schema line 5)"]);
    /// ```
    pub fn to_lines(&self, over: &LentSchema, from: &Path) -> Option<Vec<String>> {
        let schema = over.schema.as_ref().ok()?;
        let mut path = from.clone();
        let mut told = Vec::new();
        for step in &self.steps {
            let (old, new) = step.sides(schema)?;
            let before = marked(schema, &path, step.before, old.links.len())?;
            path = step.made(schema, &path)?;
            let after = marked(schema, &path, step.before, new.links.len())?;
            told.push([before, after, rule(over, step)]);
        }
        let width = |part: usize| told.iter().map(|step| step[part].chars().count()).max();
        let (left, right) = (width(0).unwrap_or(0), width(1).unwrap_or(0));
        let digits = told.len().to_string().len();
        let line = |(place, [before, after, rule]): (usize, &[String; 3])| {
            let number = place + 1;
            format!("{number:>digits$}  {before:<left$} = {after:<right$}  {rule}")
        };
        Some(told.iter().enumerate().map(line).collect())
    }
}

/// A path's text with brackets around some of its links.
fn marked(schema: &Schema, path: &Path, before: usize, count: usize) -> Option<String> {
    let name = |&link: &usize| schema.links.get(link).map(|link| link.name.clone());
    let names: Vec<String> = path.links.iter().map(name).collect::<Option<_>>()?;
    let (front, rest) = names.split_at_checked(before)?;
    let (part, rest) = rest.split_at_checked(count)?;
    let (start, part) = (schema.node_name(path.start), format!("[{}]", part.join(".")));
    Some([&[start], front, &[part], rest].concat().join("."))
}

/// The equation of a step, and which of its sides is replaced by which.
fn rule(over: &LentSchema, step: &Step) -> String {
    let direction = if step.back { "right to left" } else { "left to right" };
    let line = over.lent.lines.as_ref().and_then(|lines| lines.equations.get(step.equation));
    let place = line.map_or(String::new(), |line| format!(" ({} line {line})", over.lent.file));
    format!("equation {}, {direction}{place}", step.equation)
}
