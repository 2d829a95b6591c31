//! Causes of a refused change of a run: 18 and 19; of an added row 1, 2, 9, 10, 11 and
//! 15; and 16.

use super::{fault_cause, instance, Cause};
use crate::bits::counted;
use crate::call::Role;
use crate::change::{Change, ChangedRow};
use crate::instance::{Instance, Row};
use crate::lent::Lent;
use crate::names::listed;
use crate::question::{Answer, Question};
use crate::schema::Schema;

pub(super) fn causes(question: &Question, number: u8) -> Option<Vec<Cause>> {
    let (change, schema) = (question.change.as_ref()?, question.s_schema()?);
    let (lent, run) = (question.run.as_ref()?, question.run_decoded()?);
    match (number, &change.row) {
        (15, _) => Some(vec![full(lent, schema, &run)]),
        (16, _) => small_trays(question),
        (18, _) if change.number >= schema.nodes.len() => {
            Some(vec![absent_table(question, schema, change)])
        }
        (18, ChangedRow::Old(row)) => Some(vec![absent_row(lent, &run, change, *row)]),
        (19, ChangedRow::Old(row)) => Some(holders(lent, schema, &run, change, *row)),
        (_, ChangedRow::New(row)) => row_causes(question, schema, &run, change.number, row, number),
        _ => None,
    }
}

fn absent_table(question: &Question, schema: &Schema, change: &Change) -> Cause {
    let file = question.lent(Role::S).map_or("S", |lent| &lent.file);
    let what = format!("{file} has no such table; its tables: {}", listed(&schema.nodes));
    Cause::new(format!("table {}", change.table), what).mend("name one of these tables")
}

fn absent_row(lent: &Lent, run: &Instance, change: &Change, row: usize) -> Cause {
    let table = &change.table;
    let (has, mend) = match run.count(change.number) {
        0 => ("no rows".to_string(), "name a table that has rows".to_string()),
        1 => ("row 0 alone".to_string(), "name row 0".to_string()),
        count => {
            let rows = format!("0 to {}", count - 1);
            (format!("rows {rows}"), format!("name a row from {rows}"))
        }
    };
    Cause::new(lent.row_place(table, row), format!("{table} has {has}")).mend(mend)
}

/// The links that lead to a row.
fn holders(
    lent: &Lent,
    schema: &Schema,
    run: &Instance,
    change: &Change,
    row: usize,
) -> Vec<Cause> {
    let held = format!("{} {row}", change.table);
    let mut causes = Vec::new();
    for (number, link) in schema.links.iter().enumerate() {
        if link.target != change.number {
            continue;
        }
        for (source, _) in run.links[number].iter().enumerate().filter(|(_, &to)| to == row) {
            let place = lent.row_place(&schema.node_name(link.source), source);
            let what = format!("{} leads to {held}", link.name);
            let mend = format!(
                "withdraw the rows that lead to {held} first, or let them lead to another row"
            );
            causes.push(Cause::new(place, what).mend(mend));
        }
    }
    causes
}

/// What is wrong with an added row.
fn row_causes(
    question: &Question,
    schema: &Schema,
    run: &Instance,
    table: usize,
    lent: &Lent,
    number: u8,
) -> Option<Vec<Cause>> {
    let row = match Row::from_sheet(schema, table, &lent.sheet) {
        Ok(row) => row,
        Err(fault) => {
            let mut cause = fault_cause(lent, &fault, None);
            let or = |mend| format!("{mend}; or name the table that it was packed for");
            cause.mend = cause.mend.map(or);
            return Some(vec![cause]);
        }
    };
    // The run is accepted, so that no other row is a cause.
    let place = |_: usize, _: usize| lent.file.clone();
    let longer = run.with_row(schema, table, &row);
    Some(instance::causes_in_rows(question.s.as_ref()?, &longer, &place, number))
}

fn full(lent: &Lent, schema: &Schema, run: &Instance) -> Cause {
    let (rows, most) = (counted(run.total_rows(), "row"), Instance::MOST_ROWS);
    let what = format!("has {rows} already ({}), at most {most}", run.counts_text(schema));
    Cause::new(&lent.file, what).mend("withdraw a row first, or divide the run into several")
}

/// The bytes that the changed run and the pushed sheet need, where their trays have
/// fewer.
fn small_trays(question: &Question) -> Option<Vec<Cause>> {
    let whole = Question { tray: None, ..question.clone() };
    let Ok(Answer::Changed { run, pushed }) = whole.ask() else { return None };
    let trays = [
        ("the run's tray", "the changed run", run.len(), question.run_tray().len()),
        ("the pushed tray", "the pushed sheet", pushed.len(), question.new_tray().len()),
    ];
    let small = trays.into_iter().filter(|(_, _, needed, lent)| needed > lent);
    let causes = small.map(|(tray, result, needed, lent)| {
        let needs = counted(needed, "byte");
        let both = counted(run.len().max(pushed.len()), "byte");
        let mend = format!("lend {both}; {} hold every result", question.call.most_bytes());
        Cause::new(tray, format!("{result} needs {needs}, but {lent} were lent")).mend(mend)
    });
    Some(causes.collect())
}
