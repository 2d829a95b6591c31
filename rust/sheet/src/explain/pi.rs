//! Causes of Pi's own refusals: 13 and 14.

use super::Cause;
use crate::classes::Classes;
use crate::mapping::Mapping;
use crate::path::Path;
use crate::question::Question;
use crate::schema::Schema;

/// The most components of a table of Pi.
const MOST_COMPONENTS: usize = 64;

/// The columns of T that are the image of no column, or of several.
pub(super) fn unpaired(question: &Question) -> Option<Vec<Cause>> {
    let (s, t) = (question.s_schema()?, question.t_schema()?);
    let (mapping, lent) = (question.mapping_decoded()?, question.mapping.as_ref()?);
    let [s_name, t_name] = question.schema_names;
    let mut causes = Vec::new();
    for column in 0..t.columns.len() {
        let wanted = t.column_name(column);
        match mapping.columns_over(column).as_slice() {
            [] => {
                let what = format!("no column of {s_name} goes to {wanted}");
                let mend =
                    format!("send a column of {s_name} to {wanted}, or leave it out of {t_name}");
                causes.push(Cause::new(&lent.file, what).mend(mend));
            }
            [_] => {}
            [first, second, ..] => {
                let place = lent.place(|lines| lines.columns.get(*second));
                let (first, second) = (s.column_name(*first), s.column_name(*second));
                let what = format!("{first} and {second} both go to {wanted}");
                let mend = "send each column to a column of its own";
                causes.push(Cause::new(place, what).mend(mend));
            }
        }
    }
    Some(causes)
}

/// The tables with more than 64 components.
pub(super) fn wide(question: &Question) -> Option<Vec<Cause>> {
    let t = question.t_schema()?;
    let mapping = question.mapping_decoded()?;
    let classes = Classes::of(t, &question.t.as_ref()?.lent.sheet)?;
    let file = &question.mapping.as_ref()?.file;
    let [s_name, t_name] = question.schema_names;
    let mut causes = Vec::new();
    for node in 0..t.nodes.len() {
        let count = components(t, &mapping, &classes, node).len();
        if count > MOST_COMPONENTS {
            let name = t.node_name(node);
            let what = format!("{name} has {count} components, at most {MOST_COMPONENTS}");
            let mend = format!(
                "send fewer nodes of {s_name} to where many paths of {t_name} lead, \
                 or equate paths of {t_name}"
            );
            causes.push(Cause::new(file, what).mend(mend));
        }
    }
    Some(causes)
}

/// The components at a node of T: a node c of S with a class of equal paths
/// from there to F(c), by the class's first path.
pub(super) fn components<'a>(
    t: &Schema,
    mapping: &Mapping,
    classes: &'a Classes,
    node: usize,
) -> Vec<(usize, &'a Path)> {
    let mut found = Vec::new();
    for (c, &image) in mapping.nodes.iter().enumerate() {
        let paths = classes.firsts_from(node).filter(|path| path.end(t) == Some(image));
        found.extend(paths.map(|path| (c, path)));
    }
    found
}

/// The components at a node of T that no link of S leads to from another one: their
/// rows are chosen, and the rows of all others follow from them.
pub(super) fn chosen_components<'a>(
    [s, t]: [&Schema; 2],
    mapping: &Mapping,
    classes: &'a Classes,
    node: usize,
) -> Vec<(usize, &'a Path)> {
    let mut found = components(t, mapping, classes, node);
    let mut follow = Vec::new();
    for &(c, path) in &found {
        for link in s.links_from(c) {
            let image = mapping.links.get(link).map_or(&[][..], Vec::as_slice);
            let onward = image.iter().fold(path.clone(), |path, &edge| path.along(edge));
            follow.extend(classes.first(&onward).map(|first| (s.links[link].target, first)));
        }
    }
    found.retain(|component| !follow.contains(component));
    found
}
