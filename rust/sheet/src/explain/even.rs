//! Causes of an uneven mapping: 12.

use super::equal::{equal_to, goes_to};
use super::Cause;
use crate::classes::Classes;
use crate::kinds;
use crate::lent::{Lent, LentSchema};
use crate::mapping::Mapping;
use crate::path::Path;
use crate::question::Question;
use crate::schema::Schema;

pub(super) fn causes(question: &Question) -> Option<Vec<Cause>> {
    let (s, t) = (question.s.as_ref()?, question.t.as_ref()?);
    let (s_schema, t_schema) = (question.s_schema()?, question.t_schema()?);
    let lifting = Lifting {
        s: s_schema,
        t: t_schema,
        f: question.mapping_decoded()?,
        s_classes: Classes::of(s_schema, &s.lent.sheet)?,
        t_classes: Classes::of(t_schema, &t.lent.sheet)?,
        lent: question.mapping.as_ref()?,
        s_file: &s.lent.file,
        t_lent: t,
        names: question.schema_names,
    };
    let mut causes = Vec::new();
    for node in 0..s_schema.nodes.len() {
        causes.extend(lifting.path_causes(node)?);
        causes.extend(lifting.column_causes(node)?);
    }
    Some(causes)
}

struct Lifting<'a> {
    s: &'a Schema,
    t: &'a Schema,
    f: Mapping,
    s_classes: Classes,
    t_classes: Classes,
    lent: &'a Lent,
    s_file: &'a str,
    t_lent: &'a LentSchema,
    /// What S and T are called.
    names: [&'static str; 2],
}

impl Lifting<'_> {
    fn place(&self, node: usize) -> String {
        self.lent.place(|lines| lines.nodes.get(node))
    }

    /// The classes of paths of T from F(c) that have no class of paths from c
    /// over them, or more than one.
    fn path_causes(&self, node: usize) -> Option<Vec<Cause>> {
        let image = *self.f.nodes.get(node)?;
        let mut causes = Vec::new();
        for q in self.t_classes.firsts_from(image) {
            let over = |p: &&Path| {
                self.f.path_image(p).and_then(|image| self.t_classes.first(&image)) == Some(q)
            };
            let lifts: Vec<&Path> = self.s_classes.firsts_from(node).filter(over).collect();
            match lifts.as_slice() {
                [] => causes.push(self.no_lift(node, q)),
                [_] => {}
                [first, second, ..] => causes.push(self.two_lifts(node, q, first, second)),
            }
        }
        Some(causes)
    }

    fn no_lift(&self, node: usize, q: &Path) -> Cause {
        let [_, t] = self.names;
        let notes = vec![equal_to(self.t, &self.t_classes, q, t)];
        let (name, q) = (self.s.node_name(node), q.text(self.t));
        let what = format!("no path from {name} goes to {q} of {t}");
        let mend = format!(
            "add a link to {name} in {} and send it there, or take {q} out of {t}",
            self.s_file
        );
        Cause::new(self.place(node), what).notes(notes).mend(mend)
    }

    fn two_lifts(&self, node: usize, q: &Path, first: &Path, second: &Path) -> Cause {
        let parallel = first.end(self.s) == second.end(self.s);
        let notes = self.notes_on_lifts(q, [first, second]);
        let (first, second) = (first.text(self.s), second.text(self.s));
        let (q, [s, t]) = (q.text(self.t), self.names);
        let what = format!("{first} and {second} both go to {q} of {t}, but are unequal in {s}");
        let mend = match parallel {
            true => format!(
                "state `equation {first} = {second}` in {}, or send one of them elsewhere",
                self.s_file
            ),
            false => format!("send one of them elsewhere, or take it out of {s}"),
        };
        Cause::new(self.place(node), what).notes(notes).mend(mend)
    }

    /// By which steps the images of two paths are equal to a path of T, and what
    /// the paths are equal to in S.
    fn notes_on_lifts(&self, q: &Path, lifts: [&Path; 2]) -> Vec<String> {
        let [s, t] = self.names;
        let over = |p: &Path| goes_to(self.t_lent, t, &p.text(self.s), &self.f.path_image(p)?, q);
        let images = lifts.into_iter().filter_map(over).flatten();
        let equal = lifts.map(|p| equal_to(self.s, &self.s_classes, p, s));
        images.chain(equal).collect()
    }

    /// The columns at F(c) that are the image of no column at c, or of several.
    fn column_causes(&self, node: usize) -> Option<Vec<Cause>> {
        let image = *self.f.nodes.get(node)?;
        let mut causes = Vec::new();
        for column in self.t.columns_at(image) {
            let mut over = self.f.columns_over(column);
            over.retain(|&a| self.s.columns[a].node == node);
            let (name, wanted) = (self.s.node_name(node), self.t.column_name(column));
            let kind = kinds::name_of(self.t.columns[column].kind);
            let cause = match over.as_slice() {
                [] => Cause::new(self.place(node), format!("no column of {name} goes to {wanted}"))
                    .mend(format!(
                        "add a column of kind {kind} to {name} in {} and send it to {wanted}",
                        self.s_file
                    )),
                [_] => continue,
                [first, second, ..] => {
                    let (first, second) = (self.s.column_name(*first), self.s.column_name(*second));
                    let place = self.lent.place(|lines| lines.columns.get(over[1]));
                    Cause::new(place, format!("{first} and {second} both go to {wanted}"))
                        .mend("leave one of them out, or send it to a column of its own")
                }
            };
            causes.push(cause);
        }
        Some(causes)
    }
}
