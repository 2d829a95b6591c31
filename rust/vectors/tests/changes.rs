//! How the named changes of a run end, and what must occur among the stored ones.

use reference::bits::BitReader;
use reference::plain::*;
use reference::Refusal;
use std::cmp::Ordering;
use std::collections::{BTreeMap, BTreeSet};
use vectors::answer::{changed_lengths, reference_outcome, Outcome};
use vectors::call::{Call, Case};
use vectors::change_faults::Fault;
use vectors::change_limits::{change_limits, longest_changes};
use vectors::full::full;
use vectors::mappings::Mapped;
use vectors::record::stored_cases;
use vectors::rows::{held_by, obeys};

/// The stored changes and their outcomes.
fn stored() -> Vec<(Case, Outcome)> {
    let changes = stored_cases().into_iter().filter(|case| case.call.is_change());
    changes.map(|case| (case.clone(), reference_outcome(&case))).collect()
}

/// An accepted change, taken apart.
struct Opened {
    mapped: Mapped,
    before: Instance,
    after: Instance,
    table: usize,
    /// The number of the row that is added or withdrawn.
    row: usize,
    case: Case,
    run_length: usize,
}

impl Opened {
    fn of(case: &Case, outcome: &Outcome) -> Option<Self> {
        let (run, pushed) = outcome.lengths()?;
        let [s, t] = [0, 1].map(|place| Schema::accept(&case.sheets[place]).expect("accepted"));
        let f = Mapping::accept(&s, &t, &case.sheets[2]).expect("accepted");
        let before = Instance::accept(&s, case.sheet(3)).expect("accepted");
        let trays = outcome.run.as_ref().expect("the run's tray");
        let after = Instance::accept(&s, &trays[..run]).expect("an accepted run");
        Instance::accept(&t, &outcome.tray[..pushed]).expect("an accepted pushed sheet");
        let table = case.numbers[1] as usize;
        let row = case.numbers.get(2).map_or(before.rows[table], |&row| row as usize);
        let mapped = Mapped { s, t, f };
        Some(Opened { mapped, before, after, table, row, case: case.clone(), run_length: run })
    }

    /// The added row.
    fn added(&self) -> Row {
        let edges = self.mapped.s.edges_from(self.table).into_iter();
        let columns = self.mapped.s.attributes_at(self.table).into_iter();
        Row {
            links: edges.map(|edge| self.after.links[edge][self.row]).collect(),
            values: columns.map(|column| self.after.values[column][self.row]).collect(),
        }
    }

    /// Whether an equation would be broken by another link of the added row.
    fn another_link_would_bend(&self) -> bool {
        let (s, row) = (&self.mapped.s, self.added());
        let edges = s.edges_from(self.table);
        let others = edges.iter().enumerate().flat_map(|(place, &edge)| {
            (0..self.before.rows[s.edges[edge].target]).map(move |target| (place, target))
        });
        others.into_iter().any(|(place, target)| {
            let mut other = row.clone();
            other.links[place] = target;
            !obeys(s, &self.before, self.table, &other)
        })
    }

    /// Whether two links of the row along parallel edges lead to different rows.
    fn has_parallel_links(&self, of: &Instance) -> bool {
        let s = &self.mapped.s;
        let edges = s.edges_from(self.table);
        let differ = |&a: &usize, &b: &usize| {
            s.edges[a].target == s.edges[b].target && of.links[a][self.row] != of.links[b][self.row]
        };
        edges.iter().any(|a| edges.iter().any(|b| differ(a, b)))
    }

    /// The edges by which links lead to later rows of the table.
    fn edges_that_move(&self) -> usize {
        let later = |&edge: &usize| self.before.links[edge].iter().any(|&to| to > self.row);
        self.mapped.s.edges_to(self.table).iter().filter(|edge| later(edge)).count()
    }

    /// Whether the table is united with a later one that has rows.
    fn is_united(&self) -> bool {
        let fibre = self.mapped.f.fibre(self.mapped.f.nodes[self.table]);
        fibre.iter().any(|&c| c > self.table && self.before.rows[c] > 0)
    }
}

/// What is looked for among the accepted changes.
type Feature = fn(&Opened) -> bool;

const OF_BOTH: [(&str, Feature); 8] = [
    ("few links and columns", |o| o.mapped.s.edges.len() <= 4 && o.mapped.s.attributes.len() <= 4),
    ("more than four links", |o| o.mapped.s.edges.len() > 4),
    ("more than four columns", |o| o.mapped.s.attributes.len() > 4),
    ("a row with links and values", |o| {
        let (s, table) = (&o.mapped.s, o.table);
        !s.edges_from(table).is_empty() && !s.attributes_at(table).is_empty()
    }),
    ("a row without links and values", |o| {
        let (s, table) = (&o.mapped.s, o.table);
        s.edges_from(table).is_empty() && s.attributes_at(table).is_empty()
    }),
    ("a table that is united with a later one", Opened::is_united),
    ("bytes behind the run", |o| o.case.sheets[3].len() > o.run_length.max(o.case.sheet(3).len())),
    ("a length beyond the tray", |o| o.case.numbers[0] > o.case.sheets[3].len() as u64),
];

const OF_ADDING: [(&str, Feature); 7] = [
    ("an empty row sheet", |o| o.case.sheets[4].is_empty()),
    ("the first row of its table", |o| o.row == 0),
    ("a row behind others, in a table that links lead to", |o| {
        o.row > 0 && o.mapped.s.edges_to(o.table).iter().any(|&e| !o.before.links[e].is_empty())
    }),
    ("parallel links to different rows", |o| o.has_parallel_links(&o.after)),
    ("an equation that another link would break", Opened::another_link_would_bend),
    ("the 512th row", |o| o.after.total_rows() == 512),
    ("a run of as many bytes as before", |o| o.run_length == o.case.sheet(3).len()),
];

const OF_WITHDRAWING: [(&str, Feature); 7] = [
    ("the last row of its table", |o| o.row == o.after.rows[o.table]),
    ("the only row of its table", |o| o.after.rows[o.table] == 0),
    ("later rows that move down", |o| o.row < o.after.rows[o.table]),
    ("links that move down", |o| o.edges_that_move() > 0),
    ("links of two edges that move down", |o| o.edges_that_move() > 1),
    ("parallel links to different rows", |o| o.has_parallel_links(&o.before)),
    ("one of 512 rows", |o| o.before.total_rows() == 512),
];

#[test]
fn what_matters_to_the_changes_occurs_among_the_accepted_cases() {
    let opened: Vec<Opened> =
        stored().iter().filter_map(|(case, outcome)| Opened::of(case, outcome)).collect();
    let own = [OF_ADDING, OF_WITHDRAWING];
    for (call, own) in Call::CHANGES.into_iter().zip(own) {
        let of_call: Vec<&Opened> = opened.iter().filter(|o| o.case.call == call).collect();
        for (name, feature) in OF_BOTH.into_iter().chain(own) {
            let count = of_call.iter().filter(|opened| feature(opened)).count();
            println!("{}: {name}: {count} of {}", call.name(), of_call.len());
            assert!(count >= 3, "{}: {name} occurs {count} times", call.name());
        }
    }
}

/// Of 16 whether the run's tray is too small, and the pushed one; of 18 whether it is the
/// table, and one beyond 32 bits; of 19 whether several links lead to the row.
fn why(case: &Case, number: u8) -> Option<[bool; 2]> {
    let schema = Schema::accept(&case.sheets[0]).expect("accepted");
    match number {
        16 => {
            let (run, pushed) = changed_lengths(case).expect("an accepted change but for 16");
            Some([run > case.sheets[3].len(), pushed > case.tray])
        }
        18 => Some([case.numbers[1] >= schema.nodes as u64, case.numbers[1] >= 1 << 32]),
        19 => {
            let run = Instance::accept(&schema, case.sheet(3)).expect("accepted");
            let [table, row] = [case.numbers[1], case.numbers[2]].map(|n| n as usize);
            Some([held_by(&schema, &run, table, row).len() > 1, false])
        }
        _ => None,
    }
}

/// 16 by one tray alone and by both; 18 by the table and by the row alone; 19 by one link
/// and by several.
#[test]
fn each_tray_and_each_number_is_refused_by_itself() {
    let mut met: BTreeMap<String, usize> = BTreeMap::new();
    for (case, outcome) in stored() {
        let Err(Refusal { number, place: 0 }) = outcome.answer else { continue };
        let Some(why) = why(&case, number) else { continue };
        let what = why.map(u8::from);
        *met.entry(format!("{} {number} {what:?}", case.call.name())).or_default() += 1;
    }
    let expected = [
        "add_row 16 [1, 0]",
        "add_row 16 [0, 1]",
        "add_row 16 [1, 1]",
        "add_row 18 [1, 0]",
        "add_row 18 [1, 1]",
        "withdraw_row 16 [0, 1]",
        "withdraw_row 18 [0, 0]",
        "withdraw_row 18 [1, 0]",
        "withdraw_row 18 [1, 1]",
        "withdraw_row 19 [0, 0]",
        "withdraw_row 19 [1, 0]",
    ];
    for name in expected {
        assert!(met.get(name).is_some_and(|&count| count >= 3), "{name}: {met:?}");
    }
    assert_eq!(met.len(), expected.len(), "{met:?}");
}

/// On which side the only fault of an added row is a value off scale.
fn off_scale(case: &Case) -> Option<Ordering> {
    let schema = Schema::accept(&case.sheets[0]).ok()?;
    let table = case.numbers[1] as usize;
    let mut reader = BitReader::new(&case.sheets[4]);
    let links = reader.numbers(schema.edges_from(table).len(), 9).ok()?;
    let (mut values, mut sides) = (Vec::new(), Vec::new());
    for column in schema.attributes_at(table) {
        let value = reader.field(32).ok()?;
        let (smallest, largest) = RANGES[schema.attributes[column].kind].clone().into_inner();
        values.push(value.clamp(smallest, largest));
        sides.push(value.cmp(&value.clamp(smallest, largest)));
    }
    sides.retain(|side| side.is_ne());
    let mut mended = case.clone();
    mended.sheets[4] = Row { links, values }.to_sheet();
    (changed_lengths(&mended).is_some() && sides.len() == 1).then(|| sides[0])
}

#[test]
fn an_added_row_is_sent_back_for_one_value_too_small_and_for_one_too_large() {
    let refused = Err(Refusal { number: 10, place: 0 });
    let of_row = stored().into_iter().filter(|(_, outcome)| outcome.answer == refused);
    let sides: BTreeSet<Ordering> = of_row.filter_map(|(case, _)| off_scale(&case)).collect();
    assert_eq!(sides, [Ordering::Less, Ordering::Greater].into());
}

/// What a change answers.
type Answer = Result<usize, Refusal>;

fn refused(number: u8, place: u8) -> Answer {
    Err(Refusal { number, place })
}

/// The lengths of an accepted change.
fn both(run: usize, pushed: usize) -> Answer {
    Ok(65_536 * run + pushed)
}

/// The answers to the named changes, by call and name.
fn answers() -> BTreeMap<(Call, String), Vec<Answer>> {
    let mut answers: BTreeMap<_, Vec<_>> = BTreeMap::new();
    for case in [change_limits(), longest_changes()].concat() {
        let answer = reference_outcome(&case).answer;
        answers.entry((case.call, case.name)).or_default().push(answer);
    }
    answers
}

/// The named changes, and what they answer.
struct Named(BTreeMap<(Call, String), Vec<Answer>>);

impl Named {
    fn check(&self, call: Call, name: &str, expected: &[Answer]) {
        assert_eq!(self.0[&(call, name.to_string())], expected, "{} {name}", call.name());
    }

    fn add(&self, name: &str, expected: Answer) {
        self.check(Call::AddRow, name, &[expected]);
    }

    fn withdraw(&self, name: &str, expected: Answer) {
        self.check(Call::WithdrawRow, name, &[expected]);
    }
}

#[test]
fn the_named_changes_of_the_base_example_end_as_they_should() {
    let named = Named(answers());
    named.add("a dent more", both(25, 23));
    named.add("a joint more", both(20, 18));
    named.add("a dent at joint 2 of 2", refused(9, 0));
    named.withdraw("row 0 of table 0 withdrawn", both(14, 13));
    named.withdraw("row 1 of table 1 withdrawn", refused(19, 0));
    for (place, name) in [(1, "sheets 1 and 4 empty"), (4, "sheets 4 and 4 empty")] {
        named.add(name, refused(1, place));
        named.withdraw(name, refused(1, place));
    }
    named.add("trays of 27 and 22", refused(16, 0));
    named.add("trays of 24 and 23", refused(16, 0));
    // Once among the pushed trays, once among the run's.
    named.check(Call::AddRow, "trays of 27 and 23", &[both(25, 23), both(25, 23)]);
    named.withdraw("length 20 of 20", both(14, 13));
    named.withdraw("length 18446744073709551615 of 20", both(14, 13));
    named.withdraw("length 4294967316 of 20", both(14, 13));
    named.withdraw("length 19 of 20", refused(1, 4));
    named.check(Call::WithdrawRow, "length 18446744073709551615 of 26", &[refused(2, 4); 2]);
    named.check(Call::AddRow, "length 18446744073709551615 of 26", &[refused(2, 4); 2]);
    named.add("length 18446744073709551615 of 20", both(20, 18));
    named.add("table 2 of 3", both(25, 23));
    for table in ["3", "16", "4294967296", "9223372036854775808", "18446744073709551615"] {
        named.add(&format!("table {table} of 3"), refused(18, 0));
        named.withdraw(&format!("table {table} of 3"), refused(18, 0));
    }
    named.withdraw("row 1 of 2", both(14, 13));
    for row in ["2", "512", "1024", "4294967296", "18446744073709551615"] {
        named.withdraw(&format!("row {row} of 2"), refused(18, 0));
    }
}

#[test]
fn the_named_changes_of_other_runs_end_as_they_should() {
    let named = Named(answers());
    named.check(Call::AddRow, "511 rows", &[both(2, 2), refused(2, 0)]);
    named.check(Call::AddRow, "512 rows", &[refused(15, 0), refused(2, 0)]);
    let (gone, none) = (both(2, 2), refused(18, 0));
    named.check(Call::WithdrawRow, "512 rows", &[gone, gone, gone, none]);
    named.check(Call::WithdrawRow, "0 rows", &[none; 4]);
    named.add("512 rows, a bad source more", refused(9, 0));
    named.add("512 rows, a source more", refused(15, 0));
    named.add("511 rows, a source more", both(5, 5));
    named.withdraw("512 rows, target 509 withdrawn", refused(19, 0));
    named.withdraw("512 rows, target 508 withdrawn", both(5, 5));
    named.add("links 0 and 0 of a square", refused(11, 0));
    named.add("links 0 and 1 of a square", both(19, 19));
    named.add("32 links and 16 values", both(303, 303));
    named.add("the longest, a row more", both(51_103, 51_103));
    named.add("the longest, a row too many", refused(15, 0));
    named.withdraw("the longest, a row that all link to", refused(19, 0));
}

/// 12, 18, of the row 1, 2, 9, 10, 11, then 15, 16; 12, 18, 19, 16: the first that applies;
/// none before a sheet's.
#[test]
fn of_two_faults_the_first_is_told() {
    let answers = answers();
    for call in Call::CHANGES {
        let answer = |name: String| answers[&(call, name)].clone();
        assert!(answer("faults []".into())[0].is_ok());
        for (place, &one) in Fault::of(call).iter().enumerate() {
            let first = [refused(one.number(), 0)];
            assert_eq!(answer(format!("faults {:?}", [one])), first);
            assert_eq!(answer(format!("{one:?} and a cut run")), [refused(1, 4)]);
            for &other in Fault::of(call)[place + 1..].iter().filter(|o| one.goes_with(**o)) {
                assert_eq!(answer(format!("faults {:?}", [one, other])), first, "{}", call.name());
            }
        }
    }
}

/// At full size the run has 512 rows after a row is added, and before one is withdrawn.
#[test]
fn at_full_size_there_are_512_rows() {
    for case in full().iter().filter(|case| case.call.is_change()) {
        let opened = Opened::of(case, &reference_outcome(case)).expect("an accepted change");
        let [before, after] = [opened.before, opened.after].map(|run| run.total_rows());
        let rows = if case.call == Call::AddRow { [511, 512] } else { [512, 511] };
        assert_eq!([before, after], rows);
        let s = opened.mapped.s;
        let counts = [s.nodes, s.edges.len(), s.attributes.len(), s.equations.len()];
        assert_eq!(counts, [16, 32, 16, 32]);
    }
}
