//! Causes in a mapping: 1, 2, 7 and 8.

use super::equal::equal_to;
use super::{fault_cause, Cause};
use crate::classes::Classes;
use crate::kinds;
use crate::lent::Lent;
use crate::mapping::Mapping;
use crate::path::Path;
use crate::question::Question;
use crate::schema::Schema;

pub(super) fn causes(question: &Question, number: u8) -> Option<Vec<Cause>> {
    let (s, t) = (question.s_schema()?, question.t_schema()?);
    let lent = question.mapping.as_ref()?;
    let mapping = match Mapping::from_sheet(s, &lent.sheet) {
        Ok(mapping) => mapping,
        Err(fault) => return Some(vec![fault_cause(lent, &fault, Some("schema"))]),
    };
    match number {
        7 => {
            let [_, t_name] = question.schema_names;
            Some(Misfit { s, t, mapping: &mapping, lent, t_name }.causes())
        }
        8 => broken_rules(question, &mapping),
        _ => None,
    }
}

struct Misfit<'a> {
    s: &'a Schema,
    t: &'a Schema,
    mapping: &'a Mapping,
    lent: &'a Lent,
    /// What T is called.
    t_name: &'static str,
}

impl Misfit<'_> {
    fn causes(&self) -> Vec<Cause> {
        let nodes: Vec<Cause> =
            (0..self.s.nodes.len()).filter_map(|node| self.node(node)).collect();
        if !nodes.is_empty() {
            return nodes;
        }
        let links = (0..self.s.links.len()).filter_map(|link| self.link(link));
        let columns = (0..self.s.columns.len()).filter_map(|column| self.column(column));
        links.chain(columns).collect()
    }

    fn node(&self, node: usize) -> Option<Cause> {
        let image = self.mapping.nodes[node];
        if image < self.t.nodes.len() {
            return None;
        }
        let place = self.lent.place(|lines| lines.nodes.get(node));
        let (name, last) = (self.s.node_name(node), self.t.nodes.len().saturating_sub(1));
        let t = self.t_name;
        let what = format!("{name} goes to node {image}, but the nodes of {t} are 0 to {last}");
        Some(Cause::new(place, what).mend(format!("send {name} to a node of {t}")))
    }

    fn link(&self, link: usize) -> Option<Cause> {
        let name = self.s.link_name(link);
        let image = self.mapping.link_image(self.s, link)?;
        let target = self.s.links[link].target;
        let wanted = *self.mapping.nodes.get(target)?;
        let end = image.end(self.t);
        if end == Some(wanted) {
            return None;
        }
        let place = self.lent.place(|lines| lines.links.get(link));
        let text = image.text(self.t);
        let what = match end {
            None => match super::path::fault_of(self.t, &image) {
                Some(fault) => format!("{name}: {fault}"),
                None => format!("{name} goes to {text}, which is no path of {}", self.t_name),
            },
            Some(end) => format!(
                "{name} goes to {text}, which ends at {}, but {} goes to {}",
                self.t.node_name(end),
                self.s.node_name(target),
                self.t.node_name(wanted)
            ),
        };
        let (start, wanted) = (self.t.node_name(image.start), self.t.node_name(wanted));
        let mend = format!("send {name} to a path from {start} to {wanted}");
        Some(Cause::new(place, what).mend(mend))
    }

    fn column(&self, column: usize) -> Option<Cause> {
        let here = &self.s.columns[column];
        let image = self.mapping.columns[column];
        let wanted = *self.mapping.nodes.get(here.node)?;
        let name = self.s.column_name(column);
        let kind = kinds::name_of(here.kind);
        let image_name = self.t.column_name(image);
        let what = match self.t.columns.get(image) {
            None => {
                let (t, count) = (self.t_name, self.t.columns.len());
                format!("{name} goes to column {image}, but {t} has {count} columns")
            }
            Some(there) if there.kind != here.kind => {
                let other = kinds::name_of(there.kind);
                format!("{name} is of kind {kind}, but {image_name} of kind {other}")
            }
            Some(there) if there.node != wanted => format!(
                "{name} goes to {image_name}, but {} goes to {}",
                self.s.node_name(here.node),
                self.t.node_name(wanted)
            ),
            Some(_) => return None,
        };
        let place = self.lent.place(|lines| lines.columns.get(column));
        let wanted = self.t.node_name(wanted);
        Some(
            Cause::new(place, what)
                .mend(format!("send {name} to a column of kind {kind} at {wanted}")),
        )
    }
}

/// The equations of S whose sides have unequal images, and what each image is
/// equal to.
fn broken_rules(question: &Question, mapping: &Mapping) -> Option<Vec<Cause>> {
    let (s, t) = (question.s.as_ref()?, question.t.as_ref()?);
    let (s_schema, t_schema) = (question.s_schema()?, question.t_schema()?);
    let t_classes = Classes::of(t_schema, &t.lent.sheet)?;
    let [_, of] = question.schema_names;
    let mut causes = Vec::new();
    for (number, equation) in s_schema.equations.iter().enumerate() {
        let images = [&equation.left, &equation.right].map(|side| mapping.path_image(side));
        let [Some(left), Some(right)] = images else { continue };
        if t_classes.first(&left) == t_classes.first(&right) {
            continue;
        }
        let notes = [&left, &right].map(|image| equal_to(t_schema, &t_classes, image, of));
        let text = |path: &Path| path.text(t_schema);
        let (left, right) = (text(&left), text(&right));
        let place = s.lent.place(|lines| lines.equations.get(number));
        let equation = s_schema.equation_text(equation);
        let what =
            format!("equation {equation} goes to {left} = {right}, which are unequal in {of}");
        let mend = format!(
            "send the links to other paths, or state `equation {left} = {right}` in {}",
            t.lent.file
        );
        causes.push(Cause::new(place, what).notes(notes.to_vec()).mend(mend));
    }
    Some(causes)
}
