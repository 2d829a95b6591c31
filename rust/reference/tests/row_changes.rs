//! Request C-16 of document 02, "Rows that come and go": changes by chance, with
//! fixed seeds, against the request's sentences written down once more.

mod common;

use common::*;
use reference::plain::*;
use reference::*;
use vectors::even::even_mapping;
use vectors::instances::{instance as any_instance, value};
use vectors::mappings::{mapping as any_mapping, Mapped};
use vectors::random::Random;

/// A run along an even mapping in a tray with room for some rows more, and a
/// pushed tray that is now and then too small.
fn any_trays(random: &mut Random) -> (Mapped, Trays) {
    let mapped = even_mapping(random);
    let (s, t, f) = mapped.sheets();
    let run = any_instance(random, &mapped.s, 12);
    let pushed = sigma(&s, &t, &f, &run.to_sheet()).expect("an even mapping").len();
    let (behind, more) = (random.below(60), random.below(60));
    (mapped, Trays::of([s, t, f, run.to_sheet()], behind, pushed + more))
}

/// A row for a table: the links of one that is there, or any; sometimes with a
/// target that is not there, or with a value off its scale.
fn any_row(random: &mut Random, s: &Schema, run: &Instance, table: usize) -> Row {
    let like = random.any_in(0..run.rows[table]).filter(|_| random.once_in(2));
    let beyond = usize::from(random.once_in(4));
    let link = |edge: usize| match like {
        Some(row) => run.links[edge][row],
        None => random.below((run.rows[s.edges[edge].target] + beyond).max(1)),
    };
    let links: Vec<usize> = s.edges_from(table).into_iter().map(link).collect();
    let column = |attribute: usize| match value(random, s.attributes[attribute].kind) {
        value if random.once_in(20) => value.wrapping_sub(1),
        value => value,
    };
    Row { links, values: s.attributes_at(table).into_iter().map(column).collect() }
}

/// The fields of a row sheet, read from a text of its bits; a number where the
/// sheet is cut or has a tail.
fn fields(sheet: &[u8], widths: &[usize]) -> Result<Vec<usize>, u8> {
    let bits: String = sheet.iter().map(|byte| format!("{byte:08b}")).collect();
    let end: usize = widths.iter().sum();
    if bits.len() < end {
        return Err(1);
    }
    if bits.len() >= end + 8 || bits[end..].contains('1') {
        return Err(2);
    }
    let mut at = 0;
    let field = |&width: &usize| {
        at += width;
        usize::from_str_radix(&bits[at - width..at], 2).expect("bits")
    };
    Ok(widths.iter().map(field).collect())
}

/// The row that a path leads to from an added row, whose links are given by edge.
fn led_to(run: &Instance, links: &[(usize, usize)], path: &Path) -> Option<usize> {
    let (first, rest) = path.edges.split_first()?;
    let (_, target) = links.iter().find(|(edge, _)| edge == first)?;
    Some(rest.iter().fold(*target, |row, &edge| run.links[edge][row]))
}

/// The number of an added row, from its own links and values alone, but for 16.
fn judged(s: &Schema, run: &Instance, table: usize, sheet: &[u8]) -> Result<(), u8> {
    if table >= s.nodes {
        return Err(18);
    }
    let (edges, columns) = (s.edges_from(table), s.attributes_at(table));
    let widths = [vec![9; edges.len()], vec![32; columns.len()]].concat();
    let mut links = fields(sheet, &widths)?;
    let values = links.split_off(edges.len());
    let links: Vec<(usize, usize)> = edges.into_iter().zip(links).collect();
    if links.iter().any(|&(edge, target)| target >= run.rows[s.edges[edge].target]) {
        return Err(9);
    }
    let range = |column: usize| RANGES[s.attributes[column].kind].clone();
    if columns.into_iter().zip(values).any(|(column, v)| !range(column).contains(&(v as u32))) {
        return Err(10);
    }
    let here = |equation: &&Equation| equation.left.start == table;
    let bends = |equation: &Equation| {
        led_to(run, &links, &equation.left) != led_to(run, &links, &equation.right)
    };
    if s.equations.iter().filter(here).any(bends) {
        return Err(11);
    }
    if run.total_rows() == 512 {
        return Err(15);
    }
    Ok(())
}

/// The list in which each row of a run has itself as partner, but the rows of one
/// table from `from` on have the next one.
fn shifted(run: &Instance, table: usize, from: usize) -> Matching {
    let partner = |c: usize, row: usize| row + usize::from(c == table && row >= from);
    let tables = run.rows.iter().enumerate();
    let partners = tables.map(|(c, &rows)| (0..rows).map(|row| partner(c, row)).collect());
    Matching { partners: partners.collect() }
}

/// One of the two runs has one row more: `row` of `table`.  Without it, it is the
/// other, links and values included.
fn assert_one_row_more(s: &Schema, fewer: &Instance, more: &Instance, table: usize, row: usize) {
    let mut rows = fewer.rows.clone();
    rows[table] += 1;
    assert_eq!(rows, more.rows);
    assert!(shifted(fewer, table, row).is_matching(s, fewer, more));
}

/// Adds a row, and sees that the answer is the one that the request has for it.
fn add(trays: &mut Trays, s: &Schema, table: usize, sheet: &[u8]) -> Lengths {
    let before = trays.decoded_run();
    let lengths = trays.add(table, sheet);
    match (judged(s, &before, table, sheet), lengths) {
        (Err(number), _) => assert_eq!(lengths, refused(number, 0)),
        (Ok(()), Err(_)) => assert_eq!(lengths, refused(16, 0)),
        (Ok(()), Ok(_)) => {
            let after = trays.decoded_run();
            let last = before.rows[table];
            assert_one_row_more(s, &before, &after, table, last);
            let links = s.edges_from(table).into_iter().map(|e| after.links[e][last]).collect();
            let values = s.attributes_at(table).into_iter().map(|a| after.values[a][last]);
            assert_eq!(Row { links, values: values.collect() }.to_sheet(), sheet);
        }
    }
    lengths
}

/// Withdraws a row, and sees that the answer is the one that the request has for
/// it.
fn withdraw(trays: &mut Trays, s: &Schema, table: usize, row: usize) -> Lengths {
    let before = trays.decoded_run();
    let lengths = trays.withdraw(table, row);
    let is_there = before.rows.get(table).is_some_and(|&count| row < count);
    let leads_there =
        |(edge, targets): (&Edge, &Vec<usize>)| edge.target == table && targets.contains(&row);
    let is_held = s.edges.iter().zip(&before.links).any(leads_there);
    match lengths {
        _ if !is_there => assert_eq!(lengths, refused(18, 0)),
        _ if is_held => assert_eq!(lengths, refused(19, 0)),
        Err(_) => assert_eq!(lengths, refused(16, 0)),
        Ok(_) => assert_one_row_more(s, &trays.decoded_run(), &before, table, row),
    }
    lengths
}

/// A change by chance; now and then of a table or a row that is not there.
fn change(random: &mut Random, trays: &mut Trays, s: &Schema) -> Lengths {
    let run = trays.decoded_run();
    let ruled: Vec<usize> = s.equations.iter().map(|equation| equation.left.start).collect();
    let ruled = random.any_of(&ruled).filter(|_| random.once_in(2));
    let table = ruled.unwrap_or_else(|| random.below(s.nodes));
    let absent = random.once_in(20);
    if random.once_in(2) {
        let mut sheet = any_row(random, s, &run, table).to_sheet();
        if random.once_in(10) {
            damage(random, &mut sheet);
        }
        return add(trays, s, if absent { s.nodes + table } else { table }, &sheet);
    }
    let beyond = usize::from(random.once_in(8));
    let row = random.below((run.rows[table] + beyond).max(1));
    withdraw(trays, s, if absent { usize::MAX - table } else { table }, row)
}

#[test]
fn after_each_change_by_chance_the_trays_are_as_the_request_has_them() {
    let mut random = Random::seeded(41);
    let (mut longer, mut shorter, mut told) = (0, 0, [0; 20]);
    for _ in 0..600 {
        let (mapped, mut trays) = any_trays(&mut random);
        for _ in 0..12 {
            let rows = trays.decoded_run().total_rows();
            match change(&mut random, &mut trays, &mapped.s) {
                Ok(_) if trays.decoded_run().total_rows() > rows => longer += 1,
                Ok(_) => shorter += 1,
                Err(refusal) => told[usize::from(refusal.number)] += 1,
            }
        }
    }
    assert!(longer > 500 && shorter > 500, "{longer} added, {shorter} withdrawn");
    let seldom = [1, 2, 9, 10, 11, 16, 18, 19].map(|number| told[number]);
    assert!(seldom.iter().all(|&count| count > 20), "{seldom:?} refused");
}

#[test]
fn a_row_that_is_added_and_withdrawn_leaves_the_first_sheets() {
    let mut random = Random::seeded(42);
    let mut added = 0;
    for _ in 0..1000 {
        let (mapped, mut trays) = any_trays(&mut random);
        let before = trays.decoded_run();
        let table = random.below(mapped.s.nodes);
        let row = any_row(&mut random, &mapped.s, &before, table).to_sheet();
        if trays.add(table, &row).is_ok() {
            added += 1;
            assert!(trays.withdraw(table, before.rows[table]).is_ok());
            assert_eq!(trays.run_sheet(), before.to_sheet());
        }
    }
    assert!(added > 300, "{added} added");
}

#[test]
fn damaged_sheets_are_judged_as_sigma_judges_them() {
    let mut random = Random::seeded(43);
    let mut at_place = [0; 5];
    for round in 0..2000 {
        let Mapped { s, t, f } = match round % 4 {
            0 => any_mapping(&mut random, true),
            _ => even_mapping(&mut random),
        };
        let run = any_instance(&mut random, &s, 4).to_sheet();
        let mut sheets = [s.to_sheet(), t.to_sheet(), f.to_sheet(), run];
        if !random.once_in(5) {
            let place = random.below(4);
            damage(&mut random, &mut sheets[place]);
        }
        let [s, t, f, run] = &sheets;
        let Err(refusal) = sigma(s, t, f, run) else { continue };
        at_place[usize::from(refusal.place)] += 1;
        let mut trays = Trays::of(sheets, 0, 0);
        let (table, row) = (random.below(20), random.below(20));
        assert_eq!(trays.add(table, &random.bytes(20)), Err(refusal));
        assert_eq!(trays.withdraw(table, row), Err(refusal));
    }
    assert!(at_place.iter().all(|&count| count > 50), "{at_place:?} refused at each place");
}
