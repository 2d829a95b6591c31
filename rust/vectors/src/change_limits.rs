//! Changes of a run at their limits: on the base example, in trays and with numbers of
//! every sort, up to 512 rows, between few and many columns, and which refusal comes first
//! where two apply.

use crate::answer::changed_lengths;
use crate::base::*;
use crate::build::*;
use crate::call::{Case, FILLING};
use crate::change_faults::fault_by_fault;
use crate::mappings::Mapped;
use crate::trays::{Change, Trays};
use reference::plain::*;

/// All of them, on sheets that are not long.
pub fn change_limits() -> Vec<Case> {
    let mut cases = base_rows();
    cases.extend(trays());
    cases.extend(place_by_place());
    cases.extend(lengths());
    cases.extend(numbers());
    cases.extend(rows_of_one_table());
    cases.extend(rows_of_two_tables());
    cases.extend(parallel_links());
    cases.extend(equations());
    cases.extend(columns());
    cases.extend(fault_by_fault());
    cases
}

/// Changes with the longest sheets: too long for a file of small cases.
pub fn longest_changes() -> Vec<Case> {
    let mut wide = graph(2, &[(0, 1); 32]);
    wide.attributes = (0..16).map(|kind| Attribute { node: 0, kind: kind % 2 }).collect();
    let rows = |count: usize| Instance {
        rows: vec![count, 1],
        links: vec![vec![0; count]; 32],
        values: (0..16u32).map(|a| (0..count as u32).map(|r| r * 7919 + a).collect()).collect(),
    };
    let change = |name: &str, count: usize, change: Change| {
        let [s, t, f] = to_itself(&wide);
        Trays::with_room([s, t, f, rows(count).to_sheet()]).case(name, change)
    };
    let row = Row { links: vec![0; 32], values: (0..16).collect() };
    vec![
        change("the longest, a row more", 510, Change::add(0, &row)),
        change("the longest, a row too many", 511, Change::add(0, &row)),
        change("the longest, its first row withdrawn", 511, Change::withdraw(0, 0)),
        change("the longest, a row that all link to", 511, Change::withdraw(1, 0)),
    ]
}

/// The sheets of a schema, the same and the mapping to itself.
fn to_itself(schema: &Schema) -> [Vec<u8>; 3] {
    [schema.to_sheet(), schema.to_sheet(), identity(schema).to_sheet()]
}

/// A run over a schema that is mapped to itself, with some bytes behind it.
fn alone(schema: &Schema, run: &Instance, behind: usize) -> Trays {
    let mapped = Mapped { s: schema.clone(), t: schema.clone(), f: identity(schema) };
    Trays::new(&mapped, run, &vec![FILLING; behind], 130)
}

/// The base example, with these bytes behind the run, and a pushed tray.
fn base_trays(behind: &[u8], pushed: usize) -> Trays {
    Trays::of_sheets([base_s(), base_t(), base_f(), base_run()], behind, pushed)
}

/// A row of links and values.
fn row(links: &[usize], values: &[u32]) -> Row {
    Row { links: links.to_vec(), values: values.to_vec() }
}

/// A dent at joint 0, station 500.
pub fn base_dent() -> Row {
    row(&[0], &[500])
}

/// A row added to each table of the base example, and each row withdrawn.
fn base_rows() -> Vec<Case> {
    let change = |name: &str, change: Change| base_trays(&[7; 9], 30).case(name, change);
    let mut cases = vec![
        change("a dent more", Change::add(0, &base_dent())),
        change("a joint more", Change::add(1, &row(&[], &[]))),
        change("a loss more", Change::add(2, &row(&[1], &[4_294_967_295]))),
        change("a dent at joint 2 of 2", Change::add(0, &row(&[2], &[500]))),
    ];
    for (table, row) in [(0, 0), (0, 1), (1, 0), (1, 1), (2, 0)] {
        let name = format!("row {row} of table {table} withdrawn");
        cases.push(change(&name, Change::withdraw(table, row)));
    }
    cases
}

/// Pushed trays of every length up to two bytes more than the pushed sheet has, and run
/// trays from the run's own length on.
fn trays() -> Vec<Case> {
    let changes = [Change::add(0, &base_dent()), Change::withdraw(0, 0)];
    let mut cases = Vec::new();
    for change in changes {
        let case = |behind: usize, pushed: usize| {
            let name = format!("trays of {} and {pushed}", 20 + behind);
            base_trays(&vec![FILLING; behind], pushed).case(name, change.clone())
        };
        let (run, pushed) = changed_lengths(&case(0, 0)).expect("an accepted change");
        cases.extend((0..pushed + 3).map(|length| case(7, length)));
        cases.extend((0..run.saturating_sub(20) + 3).map(|behind| case(behind, pushed)));
        cases.push(case(0, pushed - 1));
    }
    cases
}

/// Each two sheets of the base example empty, of the run its tray: the earlier is told.
fn place_by_place() -> Vec<Case> {
    let mut cases = Vec::new();
    for change in [Change::add(0, &base_dent()), Change::withdraw(0, 0)] {
        for (one, other) in (0..4).flat_map(|one| (one..4).map(move |other| (one, other))) {
            let name = format!("sheets {} and {} empty", one + 1, other + 1);
            let mut case = base_trays(&[0; 9], 30).case(name, change.clone());
            case.sheets[one].clear();
            case.sheets[other].clear();
            cases.push(case);
        }
    }
    cases
}

/// Lengths of the run: its own, fewer bytes, more, and those beyond the tray, which mean
/// the whole tray.  A joint more needs no byte more.
fn lengths() -> Vec<Case> {
    let beyond = [16, 32, 33, 63].map(|bit| 20 | 1 << bit);
    let lengths = [&[0, 3, 4, 19, 20, 21, 25, 26, 27][..], &beyond, &[u64::MAX]].concat();
    let (joint, dent) = (Change::add(1, &row(&[], &[])), Change::add(0, &base_dent()));
    let mut cases = Vec::new();
    for (behind, added) in [(vec![], joint), (vec![0; 6], dent.clone()), (vec![FILLING; 6], dent)] {
        for &length in &lengths {
            let trays = Trays { length, ..base_trays(&behind, 24) };
            let name = format!("length {length} of {}", trays.run.len());
            cases.push(trays.case(name.clone(), Change::withdraw(2, 0)));
            cases.push(trays.case(name, added.clone()));
        }
    }
    cases
}

/// Numbers that are no table's and no row's, most of which would be if bits were cut off.
fn numbers() -> Vec<Case> {
    let far = [4, 5, 8, 9, 10, 16, 31, 32, 33, 63].map(|bit| 1u64 << bit);
    let tables = [2, 3, 15].into_iter().chain(far).chain([u64::MAX]);
    let mut cases = Vec::new();
    for table in tables {
        let (name, row) = (format!("table {table} of 3"), row(&[1], &[9]).to_sheet());
        let trays = base_trays(&[0; 9], 30);
        cases.push(trays.case(name.clone(), Change::Add { table, row }));
        cases.push(trays.case(name, Change::Withdraw { table, row: 0 }));
    }
    for row in [1, 2, 3].into_iter().chain(far).chain([u64::MAX]) {
        let case = base_trays(&[0; 9], 30)
            .case(format!("row {row} of 2"), Change::Withdraw { table: 0, row });
        cases.push(case);
    }
    cases
}

/// A table without links and columns, whose row sheet is empty, of up to 512 rows.
fn rows_of_one_table() -> Vec<Case> {
    let table = graph(1, &[]);
    let mut cases = Vec::new();
    for rows in [0, 1, 255, 256, 510, 511, 512] {
        let trays = alone(&table, &instance(&[rows], &[]), 0);
        let name = format!("{rows} rows");
        cases.push(trays.case(name.clone(), Change::add(0, &row(&[], &[]))));
        cases.push(trays.case(name.clone(), Change::Add { table: 0, row: vec![0] }));
        for row in [0, rows / 2, rows.max(1) - 1, rows] {
            cases.push(trays.case(name.clone(), Change::withdraw(0, row)));
        }
    }
    cases
}

/// 512 rows in two tables, with links to the first and to the last of 510.
fn rows_of_two_tables() -> Vec<Case> {
    let linked = graph(2, &[(0, 1)]);
    let trays = |links: &[usize], targets: usize| {
        alone(&linked, &instance(&[links.len(), targets], &[links]), 9)
    };
    let full = || trays(&[509, 0], 510);
    vec![
        full().case("512 rows, a source more", Change::add(0, &row(&[3], &[]))),
        full().case("512 rows, a target more", Change::add(1, &row(&[], &[]))),
        full().case("512 rows, a bad source more", Change::add(0, &row(&[510], &[]))),
        full().case("512 rows, target 1 withdrawn", Change::withdraw(1, 1)),
        full().case("512 rows, target 508 withdrawn", Change::withdraw(1, 508)),
        full().case("512 rows, target 509 withdrawn", Change::withdraw(1, 509)),
        full().case("512 rows, target 510 withdrawn", Change::withdraw(1, 510)),
        full().case("512 rows, source 0 withdrawn", Change::withdraw(0, 0)),
        trays(&[509], 510).case("511 rows, a source more", Change::add(0, &row(&[509], &[]))),
        trays(&[509], 510).case("511 rows, a target more", Change::add(1, &row(&[], &[]))),
        trays(&[256, 255], 300).case("target 0 withdrawn", Change::withdraw(1, 0)),
        trays(&[256, 255], 300).case("target 255 withdrawn", Change::withdraw(1, 255)),
        trays(&[], 0).case("a source without targets", Change::add(0, &row(&[0], &[]))),
    ]
}

/// Three parallel edges, and two tables that lead to one.
fn parallel_links() -> Vec<Case> {
    let schema = graph(3, &[(0, 1), (0, 1), (2, 1), (0, 1)]);
    let run = instance(&[2, 6, 1], &[&[0, 4], &[4, 4], &[5], &[2, 0]]);
    let trays = alone(&schema, &run, 12);
    let mut cases = vec![
        trays.case("three links", Change::add(0, &row(&[3, 5, 1], &[]))),
        trays.case("one link", Change::add(2, &row(&[5], &[]))),
        trays.case("the third link beyond", Change::add(0, &row(&[3, 5, 6], &[]))),
    ];
    for target in 0..6 {
        let name = format!("target {target} of parallel links");
        cases.push(trays.case(name, Change::withdraw(1, target)));
    }
    cases.push(trays.case("a source of three links", Change::withdraw(0, 0)));
    cases
}

/// Document 01's case 7: paths ab and cd are equal.  A row whose links obey that and rows
/// whose links do not, and rows that others' paths lead through.
fn equations() -> Vec<Case> {
    let mut square = graph(5, &[(0, 1), (1, 3), (0, 2), (2, 3), (3, 4)]);
    square.equations.push(equation(0, &[0, 1], &[2, 3]));
    let run = instance(&[1, 2, 3, 2, 1], &[&[0], &[0, 1], &[1], &[1, 0, 0], &[0, 0]]);
    let trays = alone(&square, &run, 12);
    let mut cases = Vec::new();
    for (b, d) in [(0, 0), (0, 1), (0, 2), (1, 0), (1, 1), (1, 2)] {
        let change = Change::add(0, &row(&[b, d], &[]));
        cases.push(trays.case(format!("links {b} and {d} of a square"), change));
    }
    for (table, row) in [(0, 0), (1, 0), (1, 1), (2, 0), (2, 1), (2, 2), (3, 0), (4, 0)] {
        let name = format!("row {row} of table {table} of a square");
        cases.push(trays.case(name, Change::withdraw(table, row)));
    }
    cases.push(trays.case("a row that no equation speaks of", Change::add(2, &row(&[1], &[]))));
    cases
}

/// A change in trays that are just as long as the results, where it is accepted.
fn fitted(mut case: Case) -> Case {
    if let Some((run, pushed)) = changed_lengths(&case) {
        case.sheets[3].truncate(run.max(case.numbers[0] as usize));
        case.tray = pushed;
    }
    case
}

/// As many links and values in one row as there can be, and around four of each, in trays
/// that just hold them.
fn columns() -> Vec<Case> {
    let mut cases = Vec::new();
    for (edges, columns) in [(32, 16), (4, 4), (5, 4), (4, 5), (5, 5), (0, 5), (5, 0), (4, 0)] {
        let mut schema = graph(2, &vec![(0, 1); edges]);
        let attribute = |kind: usize| Attribute { node: 0, kind: kind % 15 };
        schema.attributes = (0..columns).map(attribute).collect();
        let run = Instance {
            rows: vec![2, 3],
            links: (0..edges).map(|edge| vec![2 * (edge % 2), 2]).collect(),
            values: (0..columns as u32).map(|column| vec![1, 1 + column % 2]).collect(),
        };
        let links: Vec<usize> = (0..edges).map(|edge| edge % 3).collect();
        let more = Change::add(0, &row(&links, &vec![1; columns]));
        let trays = Trays { pushed: vec![FILLING; 330], ..alone(&schema, &run, 110) };
        let name = format!("{edges} links and {columns} values");
        cases.push(fitted(trays.case(name.clone(), more)));
        for (table, row) in [(0, 0), (0, 1), (1, 1)] {
            cases.push(fitted(trays.case(name.clone(), Change::withdraw(table, row))));
        }
    }
    cases
}
