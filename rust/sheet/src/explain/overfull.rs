//! Causes of a migrated instance with too many rows: 15.

use super::pi::chosen_components;
use super::Cause;
use crate::bits::counted;
use crate::call::Call;
use crate::classes::Classes;
use crate::instance::Instance;
use crate::query::Stage;
use crate::question::Question;

/// Sigma has as many rows as the run; so it is Delta's result or Pi's.
pub(super) fn causes(question: &Question) -> Option<Vec<Cause>> {
    match question.call {
        Call::Pi => pi(question),
        _ => delta(question),
    }
}

/// Delta copies a table of T for each node of S over it.
fn delta(question: &Question) -> Option<Vec<Cause>> {
    let (s, t) = (question.s_schema()?, question.t_schema()?);
    let (mapping, book) = (question.mapping_decoded()?, question.book_decoded()?);
    let table = |(node, &image): (usize, &usize)| {
        format!("{} {} as {}", s.node_name(node), book.count(image), t.node_name(image))
    };
    let tables: Vec<String> = mapping.nodes.iter().enumerate().map(table).collect();
    let total: usize = mapping.nodes.iter().map(|&image| book.count(image)).sum();
    let most = Instance::MOST_ROWS;
    let (by, book) = match question.stage {
        Some(stage) => (format!(" by {stage}"), "run"),
        None => (String::new(), "book"),
    };
    let tables = tables.join(", ");
    let what = format!("pulled back{by} it has {total} rows ({tables}), at most {most}");
    let mend = format!("lend a {book} with fewer rows in the tables that are copied several times");
    Some(vec![Cause::new(&question.book.as_ref()?.file, what).mend(mend)])
}

/// The table of Pi whose rows may be most: each row is a fitting choice of one row
/// for each component, where a link to another component leaves no choice.
fn pi(question: &Question) -> Option<Vec<Cause>> {
    let (s, t) = (question.s_schema()?, question.t_schema()?);
    let (mapping, run) = (question.mapping_decoded()?, question.run_decoded()?);
    let classes = Classes::of(t, &question.t.as_ref()?.lent.sheet)?;
    let choices = |node: usize| {
        let found = chosen_components([s, t], &mapping, &classes, node);
        let rows = found.iter().map(|&(c, _)| run.count(c) as u64);
        (rows.fold(1u64, u64::saturating_mul), found)
    };
    let tables: Vec<_> = (0..t.nodes.len()).map(choices).collect();
    let (node, (most, found)) = tables.iter().enumerate().max_by_key(|(_, (most, _))| *most)?;
    let from: Vec<String> = found
        .iter()
        .map(|&(c, _)| format!("{} ({})", s.node_name(c), counted(run.count(c), "row")))
        .collect();
    let what = format!(
        "a row of {} is a fitting choice of one row each from {}: up to {most} rows, at most {} in all tables",
        t.node_name(node),
        from.join(", "),
        Instance::MOST_ROWS
    );
    let file = &question.run.as_ref()?.file;
    let (place, these) = match question.stage {
        Some(stage) => {
            (format!("{file}, joined by {stage}"), "the tables that these are copies of")
        }
        None => (file.clone(), "these tables"),
    };
    let mosts: Vec<u64> = tables.iter().map(|(most, _)| *most).collect();
    let notes = counts_in_query(question, &run, &mosts).unwrap_or_default();
    let mend = format!("lend a run with fewer rows in {these}");
    Some(vec![Cause::new(place, what).notes(notes).mend(mend)])
}

/// Of the stage of a query: the rows that it is lent, which no file has, and the
/// most that it can give, both by table.
fn counts_in_query(question: &Question, run: &Instance, mosts: &[u64]) -> Option<Vec<String>> {
    let stage = question.stage?;
    let t = question.t_schema()?;
    let lent = run.counts_text(question.s_schema()?);
    let tables = mosts.iter().enumerate();
    let given: Vec<String> =
        tables.map(|(node, most)| format!("{} {most}", t.node_name(node))).collect();
    Some(vec![
        format!("{} gives it {} ({lent})", Stage::Project, counted(run.total_rows(), "row")),
        format!("{stage} makes of them at most: {}", given.join(", ")),
    ])
}
