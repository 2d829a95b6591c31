//! Changes of a run by chance that are made for one refusal each.

use crate::answer::changed_lengths;
use crate::call::{Call, Case, FILLING};
use crate::damage::Damage;
use crate::even::{even_mapping, uneven_mapping, Unevenness};
use crate::instances::instance;
use crate::mappings::Mapped;
use crate::random::Random;
use crate::rows::{all_rows, fitting_row, held_by};
use crate::stream::Expected;
use crate::trays::{Change, Trays};
use crate::world::Sheet;
use reference::plain::*;
use reference::Refusal;

/// For each change, sheet and damage a case with that damage; then those for 12, 18, 19,
/// 15 and 16.
pub fn for_each_refusal(random: &mut Random) -> Vec<Expected> {
    let mut cases = Vec::new();
    for call in Call::CHANGES {
        for (sheet, &kind) in call.sheets().iter().enumerate() {
            for damage in Damage::of(kind) {
                let case = damaged(random, call, sheet, damage);
                let refusal = Refusal { number: damage.number(), place: call.place(sheet) };
                cases.push(Expected { case, refusal });
            }
        }
    }
    let at_no_place = [uneven(random), absent(random), held(random), overfull(random)];
    for (number, case) in at_no_place.into_iter().flatten().chain(small_trays(random)) {
        cases.push(Expected { case, refusal: Refusal { number, place: 0 } });
    }
    cases
}

/// A run, what it is pushed along, and a row of each sort.
struct Chosen {
    mapped: Mapped,
    run: Instance,
    /// A row that can be added.
    added: (usize, Row),
    /// A row that can be withdrawn.
    free: (usize, usize),
}

impl Chosen {
    /// By chance; nothing where no row can be added or none withdrawn.
    fn any(random: &mut Random, mapped: Mapped, run: Instance) -> Option<Self> {
        let table = random.below(mapped.s.nodes);
        let added = (table, fitting_row(random, &mapped.s, &run, table)?);
        let free = |&(table, row): &(usize, usize)| held_by(&mapped.s, &run, table, row).is_empty();
        let free = random.any_of(&all_rows(&run).into_iter().filter(free).collect::<Vec<_>>())?;
        Some(Chosen { mapped, run, added, free })
    }

    /// The first along an even mapping.
    fn even(random: &mut Random) -> Self {
        loop {
            let mapped = even_mapping(random);
            let run = instance(random, &mapped.s, 4);
            if let Some(chosen) = Self::any(random, mapped, run) {
                return chosen;
            }
        }
    }

    /// The change that is accepted.
    fn change(&self, call: Call) -> Change {
        match call {
            Call::AddRow => Change::add(self.added.0, &self.added.1),
            _ => Change::withdraw(self.free.0, self.free.1),
        }
    }

    /// The sheets of a change, by place.
    fn lent(&self, call: Call) -> Vec<Sheet> {
        let Mapped { s, t, f } = &self.mapped;
        let (table, row) = self.added.clone();
        let mut lent = vec![
            Sheet::Schema(s.clone()),
            Sheet::Schema(t.clone()),
            Sheet::Mapping(f.clone()),
            Sheet::Instance(self.run.clone()),
            Sheet::Row { table, row },
        ];
        lent.truncate(call.sheets().len());
        lent
    }

    /// A change in trays of which each has so many bytes more than it needs.
    fn in_trays(&self, name: &str, change: Change, spare: [i64; 2]) -> Option<Case> {
        let roomy = Trays::new(&self.mapped, &self.run, &[], 0).case(name, change.clone());
        let (run, pushed) = changed_lengths(&roomy)?;
        let [run_tray, pushed_tray] =
            [(run, spare[0]), (pushed, spare[1])].map(|(needed, more)| needed as i64 + more);
        let behind = usize::try_from(run_tray).ok()?.checked_sub(self.run.to_sheet().len())?;
        let pushed_tray = usize::try_from(pushed_tray).ok()?;
        let trays = Trays::new(&self.mapped, &self.run, &vec![FILLING; behind], pushed_tray);
        Some(trays.case(name, change))
    }
}

/// A change with a damaged sheet, from the first run that allows it, with bytes behind the
/// run and trays by chance.
fn damaged(random: &mut Random, call: Call, sheet: usize, damage: Damage) -> Case {
    let name = format!("sheet {}, {damage:?}", sheet + 1);
    for _ in 0..10_000 {
        let chosen = Chosen::even(random);
        if let Some(sheets) = damage.done_to(random, call, &chosen.lent(call), sheet) {
            let four = sheets[..4].to_vec().try_into().expect("four sheets");
            let trays = Trays::of_sheets(four, &random.bytes(9), random.below(64));
            let mut case = trays.case(name, chosen.change(call));
            case.sheets[4..].clone_from_slice(&sheets[4..]);
            return case;
        }
    }
    panic!("{} {name}: no run allows it", call.name());
}

/// 12: mappings that are not even, for each reason.
fn uneven(random: &mut Random) -> Vec<(u8, Case)> {
    let mut cases = Vec::new();
    for call in Call::CHANGES {
        for reason in Unevenness::ALL {
            let chosen = loop {
                let mapped = uneven_mapping(random, reason);
                let run = instance(random, &mapped.s, 4);
                if let Some(chosen) = Chosen::any(random, mapped, run) {
                    break chosen;
                }
            };
            let trays = Trays::new(&chosen.mapped, &chosen.run, &[FILLING; 9], 64);
            cases.push((12, trays.case(format!("{reason:?}"), chosen.change(call))));
        }
    }
    cases
}

/// The bits by which a table's number, and a row's, are beyond those that are there; none
/// where it is the number after the last.
const BEYOND: [[Option<u32>; 2]; 6] = [
    [None, None],
    [Some(4), Some(9)],
    [Some(8), Some(10)],
    [Some(16), Some(16)],
    [Some(32), Some(32)],
    [Some(63), Some(63)],
];

/// 18: tables and rows that do not exist, most of which would if bits were cut off.
fn absent(random: &mut Random) -> Vec<(u8, Case)> {
    let beyond = |number: usize, count: usize, bit: Option<u32>| match bit {
        None => count as u64,
        Some(bit) => 1 << bit | number as u64,
    };
    let mut cases = Vec::new();
    for [of_table, of_row] in BEYOND {
        let chosen = Chosen::even(random);
        let trays = Trays::new(&chosen.mapped, &chosen.run, &[FILLING; 30], 90);
        let mut add = |name: &str, change: Change| cases.push((18, trays.case(name, change)));
        let ((at, row), (table, free)) = (&chosen.added, chosen.free);
        let (nodes, rows) = (chosen.mapped.s.nodes, chosen.run.rows[table]);
        let row = row.to_sheet();
        add("no such table", Change::Add { table: beyond(*at, nodes, of_table), row });
        let far = beyond(table, nodes, of_table);
        add("no such table", Change::Withdraw { table: far, row: free as u64 });
        let far = beyond(free, rows, of_row);
        add("no such row", Change::Withdraw { table: table as u64, row: far });
    }
    cases
}

/// 19: rows that links lead to.
fn held(random: &mut Random) -> Vec<(u8, Case)> {
    let mut cases = Vec::new();
    while cases.len() < 6 {
        let mapped = even_mapping(random);
        let run = instance(random, &mapped.s, 4);
        let held =
            |&(table, row): &(usize, usize)| !held_by(&mapped.s, &run, table, row).is_empty();
        let held: Vec<(usize, usize)> = all_rows(&run).into_iter().filter(held).collect();
        if let Some((table, row)) = random.any_of(&held) {
            let trays = Trays::new(&mapped, &run, &random.bytes(9), random.below(64));
            cases.push((19, trays.case("a held row", Change::withdraw(table, row))));
        }
    }
    cases
}

/// 15: rows that are added to 512, most of which stand in a table without links and
/// columns.
fn overfull(random: &mut Random) -> Vec<(u8, Case)> {
    let mut cases = Vec::new();
    while cases.len() < 6 {
        let mapped = even_mapping(random);
        let mut run = instance(random, &mapped.s, 4);
        let bare =
            |&c: &usize| mapped.s.edges_from(c).is_empty() && mapped.s.attributes_at(c).is_empty();
        let bare: Vec<usize> = (0..mapped.s.nodes).filter(bare).collect();
        let Some(table) = random.any_of(&bare) else { continue };
        run.rows[table] += 512 - run.total_rows();
        if let Some(chosen) = Chosen::any(random, mapped, run) {
            let trays = Trays::new(&chosen.mapped, &chosen.run, &random.bytes(30), 90);
            cases.push((15, trays.case("a row too many", chosen.change(Call::AddRow))));
        }
    }
    cases
}

/// 16: trays a byte too short, of the run, of the pushed sheet, and both; and an empty
/// pushed tray.
fn small_trays(random: &mut Random) -> Vec<(u8, Case)> {
    let mut cases = Vec::new();
    let spares = [[-1, 0], [0, -1], [-1, -1], [7, -1]];
    while cases.len() < 15 {
        let chosen = Chosen::even(random);
        let adding = |spare| chosen.in_trays("small trays", chosen.change(Call::AddRow), spare);
        // Where the changed run needs no more bytes than the run, no tray is too short.
        let Some(adding) = spares.map(adding).into_iter().collect::<Option<Vec<_>>>() else {
            continue;
        };
        let withdraw = chosen.change(Call::WithdrawRow);
        let trays = |pushed: usize| Trays::new(&chosen.mapped, &chosen.run, &[], pushed);
        let withdrawing = trays(0).case("no pushed tray", withdraw.clone());
        let (_, pushed) = changed_lengths(&withdrawing).expect("a row that can be withdrawn");
        cases.extend(adding.into_iter().map(|case| (16, case)));
        cases.push((16, trays(pushed - 1).case("a small pushed tray", withdraw)));
        cases.push((16, withdrawing));
    }
    cases
}
