//! Rows that can be added to a table of an accepted run, and what keeps a row from
//! being withdrawn.

use crate::instances::value;
use crate::random::Random;
use reference::plain::*;

/// So many lists of links are tried before a row of the table is copied.
const ATTEMPTS: usize = 20;

/// A row by chance that is accepted at the end of a table; nothing where a link has no
/// row to lead to, or none was found that obeys the equations.
pub fn fitting_row(
    random: &mut Random,
    schema: &Schema,
    run: &Instance,
    table: usize,
) -> Option<Row> {
    let values = values(random, schema, table);
    for _ in 0..ATTEMPTS {
        let row = Row { links: links(random, schema, run, table)?, values: values.clone() };
        if obeys(schema, run, table, &row) {
            return Some(row);
        }
    }
    let standing = random.any_in(0..run.rows[table])?;
    Some(Row { links: links_of(schema, run, table, standing), values })
}

/// Values by chance for a row of a table.
fn values(random: &mut Random, schema: &Schema, table: usize) -> Vec<u32> {
    let columns = schema.attributes_at(table).into_iter();
    columns.map(|column| value(random, schema.attributes[column].kind)).collect()
}

/// Links by chance for a row of a table: in half of the cases those of a row that is
/// there, of which one may be another.  Nothing where a table has no row to lead to.
fn links(random: &mut Random, schema: &Schema, run: &Instance, table: usize) -> Option<Vec<usize>> {
    let edges = schema.edges_from(table);
    let mut any = |edge: usize| {
        let target = schema.edges[edge].target;
        random.any_in(0..run.rows[target])
    };
    let mut links: Vec<usize> = edges.iter().map(|&edge| any(edge)).collect::<Option<_>>()?;
    if run.rows[table] > 0 && random.once_in(2) {
        let before = links_of(schema, run, table, random.below(run.rows[table]));
        let kept = random.any_in(0..links.len()).filter(|_| random.once_in(2));
        for (number, link) in links.iter_mut().enumerate().filter(|(n, _)| Some(*n) != kept) {
            *link = before[number];
        }
    }
    Some(links)
}

/// The links of a row, by edge numbers.
fn links_of(schema: &Schema, run: &Instance, table: usize, row: usize) -> Vec<usize> {
    schema.edges_from(table).into_iter().map(|edge| run.links[edge][row]).collect()
}

/// Whether a row whose links lead to rows that are there obeys every equation.
pub fn obeys(schema: &Schema, run: &Instance, table: usize, row: &Row) -> bool {
    let leads = |path: &Path| leads(schema, run, row, path);
    let mut here = schema.equations.iter().filter(|equation| equation.left.start == table);
    here.all(|equation| leads(&equation.left) == leads(&equation.right))
}

/// The row that a path leads to from a row to be added; nothing for the trivial path.
fn leads(schema: &Schema, run: &Instance, row: &Row, path: &Path) -> Option<usize> {
    let (first, rest) = path.edges.split_first()?;
    let place = schema.edges_from(path.start).iter().position(|edge| edge == first);
    let target = row.links[place.expect("an edge from the start")];
    let rest = Path { start: schema.edges[*first].target, edges: rest.to_vec() };
    Some(run.follow(&rest, target))
}

/// The rows of a run, each with its table.
pub fn all_rows(run: &Instance) -> Vec<(usize, usize)> {
    let tables = run.rows.iter().enumerate();
    tables.flat_map(|(table, &rows)| (0..rows).map(move |row| (table, row))).collect()
}

/// The links that lead to a row: the edge, and the row that has the link.
pub fn held_by(schema: &Schema, run: &Instance, table: usize, row: usize) -> Vec<(usize, usize)> {
    let edges = schema.edges_to(table).into_iter();
    let rows = edges.flat_map(|edge| (0..run.links[edge].len()).map(move |row| (edge, row)));
    rows.filter(|&(edge, from)| run.links[edge][from] == row).collect()
}
