//! What the stored cases must have among them.

use reference::bits::BitReader;
use reference::plain::*;
use reference::Refusal;
use std::cmp::Ordering;
use std::collections::BTreeSet;
use std::sync::OnceLock;
use vectors::answer::{reference_outcome, Outcome};
use vectors::call::{Call, Case, Kind};
use vectors::change_refusals;
use vectors::composition_refusals;
use vectors::even::is_even;
use vectors::mappings::Mapped;
use vectors::random::Random;
use vectors::record::stored_cases;
use vectors::report::{End, Report};
use vectors::stream::for_each_refusal;

/// Document 01's table "Why a sheet is sent back", by what stands on the sheet.
fn numbers_of(kind: Kind) -> &'static [u8] {
    match kind {
        // 7 on are about mappings, instances and lists.
        Kind::Schema => &[1, 2, 3, 4, 5, 6],
        // "an image is missing in T ..", "an equation of S has unequal images"
        Kind::Mapping { .. } => &[1, 2, 7, 8],
        // "the sum of the row counts", then rows, values and equations.
        Kind::Instance { .. } => &[1, 2, 3, 9, 10, 11],
        // "a schema or path names a missing node or edge"; no count limits a path.
        Kind::Path => &[1, 2, 4],
        // "then the matching sheet (1, 2, 17)"
        Kind::List => &[1, 2, 17],
        // "The tests on an added row are 1, 2, 9, 10, 11, 15"; 15 is the run's.
        Kind::Row => &[1, 2, 9, 10, 11],
    }
}

/// The numbers of no single sheet.  15 does not occur for Sigma: its result has
/// as many rows as the run.  For the query it is Delta's or Pi's.
fn numbers_of_no_sheet(call: Call) -> &'static [u8] {
    match call {
        Call::CheckSchema | Call::CheckMapping | Call::CheckInstance => &[],
        Call::FirstPath | Call::PathChain => &[16],
        Call::Delta => &[15, 16],
        Call::Sigma => &[12, 16],
        Call::Pi => &[13, 14, 15, 16],
        Call::CheckPushed | Call::CheckRaw => &[12, 15],
        Call::PushedToRaw | Call::RawToPushed => &[12, 15, 16],
        Call::Query => &[12, 13, 14, 15, 16],
        // "15 where the run would pass 512 rows", "18, absent", "19, still held"
        Call::AddRow => &[12, 15, 16, 18],
        Call::WithdrawRow => &[12, 16, 18, 19],
        // No rows, and no evenness.
        Call::Compose => &[16],
    }
}

/// Every end that a call can have.
fn can_occur(call: Call) -> Vec<End> {
    let mut ends = match call {
        Call::PathChain => vec![End::Accepted, End::Unequal],
        _ => vec![End::Accepted],
    };
    let of_none = numbers_of_no_sheet(call).iter();
    ends.extend(of_none.map(|&number| End::Refused { place: 0, number }));
    for (sheet, &kind) in call.sheets().iter().enumerate() {
        // "the tests of the change itself have place 0"
        let place = if kind == Kind::Row { 0 } else { sheet as u8 + 1 };
        let numbers = numbers_of(kind).iter();
        ends.extend(numbers.map(|&number| End::Refused { place, number }));
    }
    ends
}

/// The stored cases and their outcomes.
fn stored() -> &'static [(Case, Outcome)] {
    static STORED: OnceLock<Vec<(Case, Outcome)>> = OnceLock::new();
    let outcome = |case: Case| {
        let outcome = reference_outcome(&case);
        (case, outcome)
    };
    STORED.get_or_init(|| stored_cases().into_iter().map(outcome).collect())
}

#[test]
fn every_call_ends_in_every_way_that_it_can_and_in_no_other() {
    let mut report = Report::default();
    for (case, outcome) in stored() {
        report.add(case.call, outcome);
    }
    for call in Call::ALL {
        for end in can_occur(call) {
            assert!(report.count(call, end) > 0, "{} never ends {end}", call.name());
        }
    }
    for (call, end) in report.met() {
        assert!(can_occur(call).contains(&end), "{} ends {end}", call.name());
    }
    assert_eq!(Call::ALL.map(|call| can_occur(call).len()).iter().sum::<usize>(), 413);
}

#[test]
fn what_is_made_for_a_refusal_meets_it() {
    for seed in [1, 2, 3] {
        let others = change_refusals::for_each_refusal(&mut Random::seeded(seed)).into_iter();
        let others =
            others.chain(composition_refusals::for_each_refusal(&mut Random::seeded(seed)));
        for made in for_each_refusal(&mut Random::seeded(seed)).into_iter().chain(others) {
            let Outcome { answer, tray, run } = reference_outcome(&made.case);
            assert_eq!(answer, Err(made.refusal), "{} {}", made.case.call.name(), made.case.name);
            assert!(tray.iter().all(|&byte| byte == vectors::answer::FILLING));
            assert_eq!(run, made.case.run_before());
        }
    }
}

/// An instance sheet as it is, judged or not.
fn read(schema: &Schema, sheet: &[u8]) -> Option<Instance> {
    let mut reader = BitReader::new(sheet);
    let rows = reader.numbers(schema.nodes, 10).ok()?;
    let links = schema.edges.iter().map(|edge| reader.numbers(rows[edge.source], 9).ok());
    let links = links.collect::<Option<_>>()?;
    let mut column = |count: usize| (0..count).map(|_| reader.field(32).ok()).collect();
    let values = schema.attributes.iter().map(|attribute| column(rows[attribute.node]));
    let values = values.collect::<Option<_>>()?;
    Some(Instance { rows, links, values })
}

/// Whether the value that is an instance sheet's only fault is below its kind's
/// smallest or above its largest; nothing where there are other faults.
fn off_scale(schema: &Schema, sheet: &[u8]) -> Option<Ordering> {
    let mut instance = read(schema, sheet)?;
    let mut sides = Vec::new();
    for (values, attribute) in instance.values.iter_mut().zip(&schema.attributes) {
        let (smallest, largest) = RANGES[attribute.kind].clone().into_inner();
        for value in values {
            let found = *value;
            *value = found.clamp(smallest, largest);
            sides.push(found.cmp(value));
        }
    }
    sides.retain(|side| side.is_ne());
    let accepted = Instance::accept(schema, &instance.to_sheet()).is_ok();
    (accepted && sides.len() == 1).then(|| sides[0])
}

#[test]
fn every_instance_is_sent_back_for_one_value_too_small_and_for_one_too_large() {
    let mut met = BTreeSet::new();
    for (case, outcome) in stored() {
        // At place 0 it is an added row that is sent back.
        let Err(Refusal { number: 10, place: place @ 1.. }) = outcome.answer else { continue };
        let place = usize::from(place) - 1;
        let Kind::Instance { of } = case.call.sheets()[place] else { panic!("an instance") };
        let schema = Schema::accept(&case.sheets[of - 1]).expect("a schema, judged before");
        let side = off_scale(&schema, case.sheet(place));
        met.extend(side.map(|side| (case.call, place, side)));
    }
    for call in Call::ALL {
        for (place, kind) in call.sheets().iter().enumerate() {
            for side in [Ordering::Less, Ordering::Greater] {
                let can_be = matches!(kind, Kind::Instance { .. });
                let is = met.contains(&(call, place, side));
                assert_eq!(is, can_be, "{}, place {}: {side:?}", call.name(), place + 1);
            }
        }
    }
}

/// The decoded schemas, mapping and first instance of an accepted case of a call with
/// one mapping.
struct Opened {
    mapped: Mapped,
    instance: Instance,
    outcome: &'static Outcome,
    case: &'static Case,
}

impl Opened {
    fn of(case: &'static Case, outcome: &'static Outcome) -> Option<Self> {
        let mappings =
            case.call.sheets().iter().filter(|kind| matches!(kind, Kind::Mapping { .. }));
        let one_mapping = mappings.count() == 1 && case.sheets.len() > 3 && !case.call.is_change();
        if outcome.answer.is_err() || !one_mapping {
            return None;
        }
        let s = Schema::accept(&case.sheets[0]).ok()?;
        let t = Schema::accept(&case.sheets[1]).ok()?;
        let f = Mapping::accept(&s, &t, &case.sheets[2]).ok()?;
        let over = if case.call == Call::Delta { &t } else { &s };
        let instance = Instance::accept(over, &case.sheets[3]).ok()?;
        Some(Opened { mapped: Mapped { s, t, f }, instance, outcome, case })
    }

    /// The same without equations.
    fn without_equations(&self) -> Mapped {
        let mut mapped = self.mapped.clone();
        mapped.s.equations.clear();
        mapped.t.equations.clear();
        mapped
    }

    /// The result, decoded over a schema.
    fn result(&self, schema: &Schema) -> Instance {
        let length = self.outcome.answer.expect("an accepted case");
        Instance::accept(schema, &self.outcome.tray[..length]).expect("an accepted result")
    }

    /// Of a turning: the book row that each row of the run meets, with its
    /// table.
    fn book_rows(&self) -> Vec<(usize, usize)> {
        let length = self.outcome.answer.expect("an accepted case");
        let raw = match self.case.call {
            Call::PushedToRaw => &self.outcome.tray[..length],
            _ => &self.case.sheets[5],
        };
        let mut reader = BitReader::new(raw);
        let mut met = Vec::new();
        for (&rows, &d) in self.instance.rows.iter().zip(&self.mapped.f.nodes) {
            let partners = reader.numbers(rows, 9).expect("a partner for each row");
            met.extend(partners.into_iter().map(|partner| (d, partner)));
        }
        met
    }

    /// The number of nodes of S over each node of T.
    fn preimages(&self) -> Vec<usize> {
        (0..self.mapped.t.nodes).map(|d| self.mapped.f.fibre(d).len()).collect()
    }

    /// Whether an edge of T has a lift of more than one edge, with rows to carry.
    fn has_long_lift(&self) -> bool {
        let Mapped { s, t, f } = &self.mapped;
        let lifting = reference::evenness::Lifting::new(s, t, f);
        (0..s.nodes).any(|c| {
            let edges = t.edges_from(f.nodes[c]);
            let long = |&e: &usize| lifting.edge_lift(c, e).edges.len() > 1;
            self.instance.rows[c] > 0 && edges.iter().any(long)
        })
    }
}

/// What is looked for among the accepted cases of a call.
type Feature = fn(&Opened) -> bool;

const OF_SIGMA: [(&str, Feature); 8] = [
    ("no rows at all", |o| o.instance.total_rows() == 0),
    ("a table without rows beside one with rows", |o| {
        o.instance.rows.contains(&0) && o.instance.total_rows() > 0
    }),
    ("a node without preimage", |o| o.preimages().contains(&0)),
    ("several preimages with rows", |o| {
        (0..o.mapped.t.nodes).any(|d| {
            let fibre = o.mapped.f.fibre(d);
            fibre.iter().filter(|&&c| o.instance.rows[c] > 0).count() > 1
        })
    }),
    ("a lift longer than one edge", Opened::has_long_lift),
    ("an edge of S over a longer path", |o| o.mapped.f.edges.iter().any(|e| e.len() > 1)),
    ("equations without which the mapping is uneven", |o| !is_even(&o.without_equations())),
    ("links and values", |o| {
        let result = o.result(&o.mapped.t);
        result.links.iter().any(|l| !l.is_empty()) && result.values.iter().any(|v| !v.is_empty())
    }),
];

const OF_DELTA: [(&str, Feature); 4] = [
    ("several preimages", |o| o.preimages().iter().any(|&count| count > 1)),
    ("an edge over a trivial path", |o| o.mapped.f.edges.iter().any(Vec::is_empty)),
    ("an edge over a longer path", |o| o.mapped.f.edges.iter().any(|e| e.len() > 1)),
    ("a column that is left out", |o| o.mapped.t.attributes.len() > o.mapped.s.attributes.len()),
];

const OF_PI: [(&str, Feature); 6] = [
    ("a node without preimage", |o| o.preimages().contains(&0)),
    ("several rows in several tables", |o| {
        o.result(&o.mapped.t).rows.iter().filter(|&&rows| rows > 1).count() > 1
    }),
    ("fewer families than combinations", |o| {
        let every: usize = o.instance.rows.iter().product();
        let result = o.result(&o.mapped.t).total_rows();
        !o.mapped.s.edges.is_empty() && result < every && result > 1
    }),
    ("equations without which there are other rows", |o| {
        let (s, t, f) = o.without_equations().sheets();
        reference::pi(&s, &t, &f, &o.instance.to_sheet()) != Ok(o.result(&o.mapped.t).to_sheet())
    }),
    ("a table without rows", |o| o.result(&o.mapped.t).rows.contains(&0)),
    ("columns", |o| o.result(&o.mapped.t).values.iter().any(|v| !v.is_empty())),
];

const OF_TURNING: [(&str, Feature); 3] = [
    ("a list that is not its own turning", |o| {
        o.outcome.tray[..o.outcome.answer.unwrap_or(0)] != o.case.sheets[5][..]
    }),
    ("two rows with one partner", |o| {
        let met = o.book_rows();
        met.iter().collect::<BTreeSet<_>>().len() < met.len()
    }),
    ("no rows", |o| o.instance.total_rows() == 0),
];

#[test]
fn what_matters_to_the_calls_occurs_among_the_accepted_cases() {
    let opened: Vec<Opened> =
        stored().iter().filter_map(|(case, outcome)| Opened::of(case, outcome)).collect();
    let check = |call: Call, features: &[(&str, Feature)]| {
        for (name, feature) in features {
            let of_call = opened.iter().filter(|opened| opened.case.call == call);
            let count = of_call.filter(|opened| feature(opened)).count();
            assert!(count >= 3, "{}: {name} occurs {count} times", call.name());
        }
    };
    check(Call::Sigma, &OF_SIGMA);
    check(Call::Delta, &OF_DELTA);
    check(Call::Pi, &OF_PI);
    check(Call::PushedToRaw, &OF_TURNING);
    check(Call::RawToPushed, &OF_TURNING);
}

#[test]
fn trays_of_the_result_s_length_and_a_byte_less_occur() {
    for call in Call::ALL.into_iter().filter(|call| call.has_tray()) {
        let cases = stored().iter().filter(|(case, _)| case.call == call);
        let (mut exact, mut short) = (0, 0);
        for (case, outcome) in cases {
            match vectors::answer::result_length(case) {
                Some(needed) if needed == case.tray => {
                    assert_eq!(
                        outcome.lengths().map_or(outcome.answer, |(_, n)| Ok(n)),
                        Ok(needed)
                    );
                    exact += 1;
                }
                Some(needed) if needed == case.tray + 1 => {
                    assert_eq!(outcome.answer, Err(Refusal { number: 16, place: 0 }));
                    short += 1;
                }
                _ => {}
            }
        }
        assert!(exact > 5 && short > 5, "{}: {exact} exact, {short} short", call.name());
    }
}
