//! Streams of changes by chance: rows that are added to one run and withdrawn from it,
//! one change after the other, each lent the trays as those before it left them.

use crate::answer::{changed_lengths, reference_outcome};
use crate::build::identity;
use crate::call::{Call, Case};
use crate::damage::RowDamage;
use crate::even::{copies, even_mapping, uneven_mapping, Unevenness};
use crate::instances::instance;
use crate::mappings::Mapped;
use crate::random::Random;
use crate::rows::{all_rows, fitting_row, held_by};
use crate::schemas::{add_attributes, add_equations, is_accepted, woven};
use crate::stream::flip;
use crate::trays::{Change, Trays};
use reference::plain::*;

/// Changes by chance, without end, in streams of up to 24 on one run.
pub struct Streams {
    random: Random,
    number: u64,
    stream: Option<Stream>,
    left: usize,
}

impl Streams {
    /// The streams of a seed.
    pub fn seeded(seed: u64) -> Self {
        Streams { random: Random::seeded(seed), number: 0, stream: None, left: 0 }
    }
}

impl Iterator for Streams {
    type Item = Case;

    fn next(&mut self) -> Option<Case> {
        if self.left == 0 {
            self.number += 1;
            self.stream = Some(Stream::any(&mut self.random));
            self.left = 1 + self.random.below(24);
        }
        self.left -= 1;
        let stream = self.stream.as_mut().expect("a stream");
        Some(stream.next(&mut self.random, self.number))
    }
}

/// A run, what its changes are made along, and the trays as the last one left them.
struct Stream {
    s: Schema,
    trays: Trays,
}

/// The lengths of trays, by the bytes that they have more than is needed at first.
fn room(random: &mut Random, needed: usize) -> usize {
    let more = match random.below(12) {
        0..=3 => random.below(8),
        4..=7 => random.below(60),
        8..=10 => random.below(400),
        _ => Case::MOST_RESULT,
    };
    (needed + more).min(Case::MOST_RESULT.max(needed))
}

/// Adds rows to tables without links until there are some 510.
fn filled(random: &mut Random, schema: &Schema, mut run: Instance) -> Instance {
    let ends: Vec<usize> = (0..schema.nodes).filter(|&c| schema.edges_from(c).is_empty()).collect();
    let total = 508 + random.below(5);
    while run.total_rows() < total {
        let table = *random.one_of(&ends);
        run.rows[table] += 1;
        for column in schema.attributes_at(table) {
            run.values[column].push(*RANGES[schema.attributes[column].kind].start());
        }
    }
    run
}

/// A schema with parallel paths and equations between them, and the mapping to itself.
fn to_itself(random: &mut Random) -> Mapped {
    loop {
        let mut s = woven(random, 5, 4);
        add_attributes(random, &mut s, 3);
        add_equations(random, &mut s, 3, |_, _| true);
        if is_accepted(&s) {
            return Mapped { t: s.clone(), f: identity(&s), s };
        }
    }
}

impl Stream {
    /// A stream by chance: of twenty one along a mapping that is not even, two between
    /// larger schemas, seven of a schema with equations to itself; of eight one on a run of
    /// some 510 rows.
    fn any(random: &mut Random) -> Self {
        let mapped = match random.below(20) {
            0 => {
                let reason = *random.one_of(&Unevenness::ALL);
                uneven_mapping(random, reason)
            }
            1 | 2 => copies(random),
            3..=9 => to_itself(random),
            _ => even_mapping(random),
        };
        let generators = *random.one_of(&[1, 2, 3, 4, 4, 6, 6, 12, 12, 40]);
        let mut run = instance(random, &mapped.s, generators);
        if random.once_in(8) {
            run = filled(random, &mapped.s, run);
        }
        Self::on(random, &mapped, &run)
    }

    /// The stream on a run, in trays by chance, with bytes by chance behind the run.
    fn on(random: &mut Random, mapped: &Mapped, run: &Instance) -> Self {
        let (s, t, f) = mapped.sheets();
        let sheet = run.to_sheet();
        let pushed = reference::sigma(&s, &t, &f, &sheet).map_or(20, |pushed| pushed.len());
        let behind = room(random, sheet.len()) - sheet.len();
        let behind: Vec<u8> = (0..behind).map(|_| (random.bits() >> 32) as u8).collect();
        let pushed = room(random, pushed);
        let trays = Trays::of_sheets([s, t, f, sheet], &behind, pushed);
        Stream { s: mapped.s.clone(), trays }
    }

    /// The run as it stands.
    fn run(&self) -> Instance {
        let length = self.trays.length as usize;
        Instance::accept(&self.s, &self.trays.run[..length]).expect("an accepted run")
    }

    /// The next change.  Two of three are lent what fits, and move the stream on where
    /// they are accepted; the others are troubled, and leave it.
    fn next(&mut self, random: &mut Random, number: u64) -> Case {
        let run = self.run();
        let (what, change) = self.change(random, &run);
        let case = self.trays.case(format!("stream {number}, {what}"), change);
        if random.once_in(3) {
            return self.troubled(random, &run, case);
        }
        self.trays.settle(&reference_outcome(&case));
        case
    }

    /// A row that fits, or one that stands in the run and may be held.
    fn change(&self, random: &mut Random, run: &Instance) -> (&'static str, Change) {
        let free = |&(table, row): &(usize, usize)| held_by(&self.s, run, table, row).is_empty();
        let mut rows = all_rows(run);
        if !random.once_in(4) {
            rows.retain(free);
        }
        match random.any_of(&rows).filter(|_| random.below(5) < 2) {
            Some((table, row)) => ("a row withdrawn", Change::withdraw(table, row)),
            None => {
                let (table, row) = self.fitting(random, run);
                ("a row added", Change::add(table, &row))
            }
        }
    }

    /// A table by chance with a row that fits its end: those without links always have one.
    fn fitting(&self, random: &mut Random, run: &Instance) -> (usize, Row) {
        loop {
            let table = random.below(self.s.nodes);
            if let Some(row) = fitting_row(random, &self.s, run, table) {
                return (table, row);
            }
        }
    }

    /// A change with other numbers, another row, other trays or a damaged sheet.
    fn troubled(&self, random: &mut Random, run: &Instance, mut case: Case) -> Case {
        let sheet = random.below(case.sheets.len());
        let what = match random.below(9) {
            0 | 1 if case.call == Call::AddRow => self.other_row(random, run, &mut case),
            0 | 1 => {
                case.numbers[2] = far(random, case.numbers[2]);
                "another row number"
            }
            2 => {
                case.numbers[1] = far(random, case.numbers[1]);
                "another table"
            }
            3 => {
                case.numbers[0] = far(random, case.numbers[0]);
                "another length"
            }
            4 => {
                let length = random.below(case.sheets[3].len() + 2);
                case.numbers[0] = length as u64;
                "any length"
            }
            5 => small_trays(random, &mut case),
            6 => {
                let length = random.below(case.sheets[sheet].len() + 1);
                case.sheets[sheet].truncate(length);
                "a sheet cut"
            }
            _ => {
                flip(random, &mut case.sheets[sheet]);
                "a bit flipped"
            }
        };
        case.name += &format!(", {what}");
        case
    }

    /// The sheet of another row: one that is damaged, bent where it can be, or bytes by
    /// chance.
    fn other_row(&self, random: &mut Random, run: &Instance, case: &mut Case) -> &'static str {
        let table = case.numbers[1] as usize;
        let other = *random.one_of(&RowDamage::ALL);
        let fitting = fitting_row(random, &self.s, run, table);
        let mut done =
            |damage: RowDamage| damage.done_to(random, &self.s, run, table, fitting.as_ref()?);
        let damaged = done(RowDamage::Bent).or(done(other));
        case.sheets[4] = match damaged {
            Some(row) if !random.once_in(4) => row,
            _ => random.bytes(case.sheets[4].len() + 1),
        };
        "another row"
    }
}

/// A number that is another, or the same with a bit far up, or the largest.
fn far(random: &mut Random, number: u64) -> u64 {
    match random.below(8) {
        0 => u64::MAX,
        1 => number + 1,
        2 => number.saturating_sub(1),
        3 => number + 16,
        _ => number | 1 << *random.one_of(&[4, 8, 9, 10, 16, 31, 32, 33, 48, 63]),
    }
}

/// One tray as long as its result, or a byte shorter, or empty.
fn small_trays(random: &mut Random, case: &mut Case) -> &'static str {
    let (run, pushed) = changed_lengths(case).unwrap_or((0, 0));
    let less = random.below(2);
    match random.below(3) {
        0 => case.sheets[3].truncate(run.saturating_sub(less)),
        1 => case.tray = pushed.saturating_sub(less).min(case.tray),
        _ => case.tray = 0,
    }
    case.standing.truncate(case.tray);
    "other trays"
}
