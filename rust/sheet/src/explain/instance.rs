//! Causes in an instance: 1, 2, 3, 9, 10 and 11.

use super::{fault_cause, Cause};
use crate::bits::counted;
use crate::instance::Instance;
use crate::kinds::{Kind, KINDS};
use crate::lent::{Lent, LentSchema};
use crate::schema::Schema;

pub(super) fn causes(lent: &Lent, over: &LentSchema, number: u8) -> Option<Vec<Cause>> {
    let schema = over.schema.as_ref().ok()?;
    let instance = match Instance::from_sheet(schema, &lent.sheet) {
        Ok(instance) => instance,
        Err(fault) => {
            let cause = fault_cause(lent, &fault, Some("schema"));
            return Some(vec![match fault.number() {
                3 => cause.mend("leave rows out, or divide the instance into several"),
                _ => cause,
            }]);
        }
    };
    let place = |table, row| lent.row_place(&schema.node_name(table), row);
    Some(causes_in_rows(over, &instance, &place, number))
}

/// Where a row of a table stands.
type Place<'a> = &'a dyn Fn(usize, usize) -> String;

/// Causes in the rows of an instance.
pub(super) fn causes_in_rows(
    over: &LentSchema,
    instance: &Instance,
    place: Place,
    number: u8,
) -> Vec<Cause> {
    match (number, &over.schema) {
        (9, Ok(schema)) => dangling(schema, instance, place),
        (10, Ok(schema)) => off_scale(schema, instance, place),
        (11, Ok(schema)) => bent_rows(over, schema, instance, place),
        _ => Vec::new(),
    }
}

fn dangling(schema: &Schema, instance: &Instance, place: Place) -> Vec<Cause> {
    let mut causes = Vec::new();
    for (number, link) in schema.links.iter().enumerate() {
        let count = instance.count(link.target);
        let (name, target_name) = (&link.name, schema.node_name(link.target));
        for (row, &target) in instance.links[number].iter().enumerate() {
            if target < count {
                continue;
            }
            let has = counted(count, "row");
            let what = format!("{name} {target}, but {target_name} has {has}");
            let mend = match count {
                0 => format!("add the rows of {target_name}"),
                1 => format!("let {name} name row 0, or add rows to {target_name}"),
                _ => format!(
                    "let {name} name a row from 0 to {}, or add rows to {target_name}",
                    count - 1
                ),
            };
            causes.push(Cause::new(place(link.source, row), what).mend(mend));
        }
    }
    causes
}

fn off_scale(schema: &Schema, instance: &Instance, place: Place) -> Vec<Cause> {
    let mut causes = Vec::new();
    for (number, column) in schema.columns.iter().enumerate() {
        let Some(kind) = KINDS.get(column.kind) else { continue };
        for (row, &value) in instance.values[number].iter().enumerate() {
            if kind.range().contains(&value) {
                continue;
            }
            causes.push(value_cause(place(column.node, row), &column.name, kind, value));
        }
    }
    causes
}

/// The cause where a column has a value off its kind's scale.
fn value_cause(place: String, name: &str, kind: &Kind, value: u32) -> Cause {
    if let Some(former) = kind.former.filter(|former| former.value == value) {
        let what = format!("{name} {value}: {} is written {}", former.meaning, former.now);
        return Cause::new(place, what).mend(format!("write {name} {value} as {}", former.now));
    }
    let range = format!("{} to {}", kind.smallest, kind.largest);
    let what = format!("{name} {value}, but the kind {} runs from {range}", kind.name);
    let unit = match kind.unit {
        "" => String::new(),
        unit => format!(" (in {unit})"),
    };
    Cause::new(place, what).mend(format!("correct {name} to {range}{unit}"))
}

fn bent_rows(over: &LentSchema, schema: &Schema, instance: &Instance, place: Place) -> Vec<Cause> {
    let mut causes = Vec::new();
    for (number, equation) in schema.equations.iter().enumerate() {
        let stated = over.lent.place(|lines| lines.equations.get(number));
        for row in 0..instance.count(equation.left.start) {
            let left = instance.follow(&equation.left, row);
            let right = instance.follow(&equation.right, row);
            let (Some(left), Some(right)) = (left, right) else { continue };
            if left == right {
                continue;
            }
            let end = equation.left.end(schema).map_or_else(String::new, |n| schema.node_name(n));
            let text = |path: &crate::path::Path| path.text(schema);
            let what = format!(
                "{} leads to {end} row {left}, but {} to row {right}",
                text(&equation.left),
                text(&equation.right)
            );
            let place = place(equation.left.start, row);
            let mend = format!(
                "let both lead to one row of {end}, as equation {} asks ({stated})",
                schema.equation_text(equation)
            );
            causes.push(Cause::new(place, what).mend(mend));
        }
    }
    causes
}
