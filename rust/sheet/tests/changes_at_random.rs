//! Changes by chance, streams of them on one run: an accepted one makes the run that
//! the same change of its tables makes, with its Sigma; a refused one has the number
//! that the changed tables are sent back with, and its cause is found.

mod common;

use common::cause_is_found;
use common::generate::{self, Random};
use sheet::{Answer, Call, Change, ChangedRow, Instance, Lent, LentSchema, Question, Row, Schema};

/// A question with a run along an even mapping of copies of T; and S.
fn world(random: &mut Random) -> (Question, Schema) {
    loop {
        let t = generate::schema(random);
        let (s, f) = generate::copies(&t, 1 + random.below(2));
        let s_sheet = s.to_sheet().unwrap();
        if migration::check_schema(&s_sheet).is_err() {
            continue;
        }
        let run = generate::instance(random, &s, 4);
        let mut question = Question::new(Call::AddRow);
        question.s = Some(LentSchema::from_sheet("s.sheet", s_sheet));
        question.t = Some(LentSchema::from_sheet("t.sheet", t.to_sheet().unwrap()));
        question.mapping = Some(Lent::from_sheet("f.sheet", f.to_sheet().unwrap()));
        question.run = Some(Lent::from_sheet("run.sheet", run.to_sheet().unwrap()));
        return (question, s);
    }
}

/// A row of which one number in twenty is any number at all.
fn row(random: &mut Random, schema: &Schema, run: &Instance, table: usize) -> Row {
    let links = schema.links_from(table).into_iter().map(|link| match random.once_in(20) {
        true => random.below(512),
        false => random.below(run.count(schema.links[link].target).max(1)),
    });
    let links = links.collect();
    let values = schema.columns_at(table).into_iter().map(|column| {
        let range = sheet::kinds::KINDS[schema.columns[column].kind].range();
        match random.once_in(20) {
            true => random.bits() as u32,
            false => (random.below(3) as u32).clamp(*range.start(), *range.end()),
        }
    });
    Row { links, values: values.collect() }
}

/// The row of a change, by its words where its numbers may be written, or by its
/// sheet, sometimes a damaged one.
fn addition(random: &mut Random, schema: &Schema, run: &Instance) -> Change {
    let table = random.below(schema.nodes.len());
    let name = schema.nodes[table].clone();
    let row = row(random, schema, run, table);
    let mut sheet = row.to_sheet().unwrap();
    if random.once_in(8) {
        match random.below(3) {
            0 => sheet.push(0),
            1 => sheet.truncate(random.below(sheet.len() + 1)),
            _ => sheet.iter_mut().for_each(|byte| *byte |= 1),
        }
        return Change::add_sheet(schema, &name, Lent::from_sheet("row.sheet", sheet));
    }
    let words = generate::row_words(schema, table, &row);
    Change::add(schema, &name, &random.shuffled(words)).unwrap()
}

fn change(random: &mut Random, schema: &Schema, run: &Instance) -> Change {
    if random.once_in(20) {
        let words: [&str; 0] = [];
        return match random.below(2) {
            0 => Change::add(schema, "no table", &words).unwrap(),
            _ => Change::withdraw(schema, "no table", 0),
        };
    }
    if random.below(5) < 3 {
        return addition(random, schema, run);
    }
    let table = random.below(schema.nodes.len());
    let row = random.below(run.count(table) + 1);
    Change::withdraw(schema, &schema.nodes[table], row)
}

/// The changed tables, or the number of the refusal.
fn made(schema: &Schema, run: &Instance, change: &Change) -> Result<Instance, u8> {
    let table = change.number;
    match &change.row {
        _ if table >= schema.nodes.len() => Err(18),
        ChangedRow::New(lent) => {
            let row = Row::from_sheet(schema, table, &lent.sheet);
            let longer = with_row(schema, run, table, &row.map_err(|fault| fault.number())?);
            let (s, sheet) = (schema.to_sheet().unwrap(), longer.to_sheet().unwrap());
            let judged = migration::check_instance(&s, &sheet);
            judged.map(|()| longer).map_err(|refusal| refusal.number)
        }
        ChangedRow::Old(row) if *row >= run.count(table) => Err(18),
        ChangedRow::Old(row) => without_row(schema, run, table, *row).ok_or(19),
    }
}

fn with_row(schema: &Schema, run: &Instance, table: usize, row: &Row) -> Instance {
    let mut longer = run.clone();
    longer.rows[table] += 1;
    for (link, &target) in schema.links_from(table).into_iter().zip(&row.links) {
        longer.links[link].push(target);
    }
    for (column, &value) in schema.columns_at(table).into_iter().zip(&row.values) {
        longer.values[column].push(value);
    }
    longer
}

/// None where a link leads to the row.
fn without_row(schema: &Schema, run: &Instance, table: usize, row: usize) -> Option<Instance> {
    let mut shorter = run.clone();
    shorter.rows[table] -= 1;
    for (targets, link) in shorter.links.iter_mut().zip(&schema.links) {
        if link.source == table {
            targets.remove(row);
        }
        if link.target == table && targets.contains(&row) {
            return None;
        }
        if link.target == table {
            targets.iter_mut().for_each(|target| *target -= usize::from(*target > row));
        }
    }
    for column in schema.columns_at(table) {
        shorter.values[column].remove(row);
    }
    Some(shorter)
}

#[test]
fn streams_of_changes_keep_the_pushed_run_current() {
    let mut met = [0; 20];
    for seed in 0..300 {
        let random = &mut Random::seeded(seed);
        let (mut question, s) = world(random);
        let mut run = Instance::from_sheet(&s, &question.run.as_ref().unwrap().sheet).unwrap();
        let sheet = |lent: &Option<LentSchema>| lent.as_ref().unwrap().lent.sheet.clone();
        let (s_sheet, t_sheet) = (sheet(&question.s), sheet(&question.t));
        let f_sheet = question.mapping.as_ref().unwrap().sheet.clone();
        for _ in 0..20 {
            let change = change(random, &s, &run);
            let expected = made(&s, &run, &change);
            question.lend_change(change);
            let number = match question.ask() {
                Ok(Answer::Changed { run: changed, pushed }) => {
                    run = expected.unwrap();
                    assert_eq!(changed, run.to_sheet().unwrap(), "seed {seed}");
                    let fresh = migration::sigma(&s_sheet, &t_sheet, &f_sheet, &changed);
                    assert_eq!(Ok(pushed), fresh, "seed {seed}");
                    assert!(question.news().is_some_and(|told| told.ends_with('\n')));
                    question.run = Some(Lent::from_sheet("run.sheet", changed));
                    0
                }
                Ok(answer) => panic!("seed {seed}: {answer:?}"),
                Err(refusal) => {
                    assert_eq!(Err(refusal.number), expected, "seed {seed}");
                    assert_eq!(refusal.place, 0, "seed {seed}");
                    cause_is_found(&question, seed)
                }
            };
            met[number] += 1;
        }
    }
    for number in [0, 1, 2, 9, 10, 11, 18, 19] {
        assert!(met[number] > 0, "refusal {number} was not met: {met:?}");
    }
}

/// With sheets damaged and trays too small, too.
#[test]
fn the_cause_of_every_refused_change_is_found() {
    let mut met = [0; 20];
    for seed in 0..1500 {
        let random = &mut Random::seeded(seed);
        let (mut question, s) = world(random);
        let run = Instance::from_sheet(&s, &question.run.as_ref().unwrap().sheet).unwrap();
        question.lend_change(change(random, &s, &run));
        if random.once_in(3) {
            question.tray = Some(random.below(20));
        }
        let sheet = match random.below(6) {
            0 => &mut question.s.as_mut().unwrap().lent.sheet,
            1 => &mut question.mapping.as_mut().unwrap().sheet,
            2 => &mut question.run.as_mut().unwrap().sheet,
            _ => &mut Vec::new(),
        };
        if !sheet.is_empty() {
            let place = random.below(sheet.len());
            sheet[place] ^= 1 << random.below(8);
        }
        let damaged = question.s.take().unwrap().lent;
        question.s = Some(LentSchema::from_sheet(&damaged.file, damaged.sheet));
        met[cause_is_found(&question, seed)] += 1;
    }
    for number in [0, 1, 2, 9, 10, 11, 12, 16, 18, 19] {
        assert!(met[number] > 0, "refusal {number} was not met: {met:?}");
    }
}
