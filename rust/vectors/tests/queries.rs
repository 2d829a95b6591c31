//! How the named queries end, and what must occur among the stored ones.

use reference::evenness::Lifting;
use reference::plain::*;
use reference::{migrate, Refusal};
use std::collections::BTreeMap;
use vectors::answer::{reference_outcome, Outcome};
use vectors::call::{Call, Case};
use vectors::digs::Dig;
use vectors::even::is_even;
use vectors::full::full_dig;
use vectors::queries::{base_dig, queries, Fault};
use vectors::record::stored_cases;

/// An accepted query, and what each of the three migrations makes of its run.
struct Opened {
    dig: Dig,
    projected: Instance,
    joined: Instance,
    united: Instance,
}

impl Opened {
    fn of(case: &Case, outcome: &Outcome) -> Option<Self> {
        let length = outcome.answer.ok()?;
        let [s1, s2, s3, s4, f, g, h, run] = case.sheets.as_slice() else { return None };
        let schemas = [s1, s2, s3, s4].map(|sheet| Schema::accept(sheet).expect("accepted"));
        let [s1, s2, s3, s4] = &schemas;
        let f = Mapping::accept(s2, s1, f).expect("accepted");
        let g = Mapping::accept(s2, s3, g).expect("accepted");
        let h = Mapping::accept(s3, s4, h).expect("accepted");
        let run = Instance::accept(s1, run).expect("accepted");
        let projected = migrate::delta(s2, &f, &run).expect("at most 512 rows");
        let joined = migrate::pi(s2, s3, &g, &projected).expect("at most 512 rows");
        let united = Instance::accept(s4, &outcome.tray[..length]).expect("an accepted result");
        let dig = Dig { schemas, f, g, h, run };
        Some(Opened { dig, projected, joined, united })
    }

    /// Whether two tables with rows go to one, by a mapping.
    fn unites(f: &Mapping, tables: &Instance) -> bool {
        let full = |c: &usize| tables.rows[*c] > 0;
        f.nodes.iter().any(|&d| f.fibre(d).iter().filter(|c| full(c)).count() > 1)
    }
}

/// What is looked for among the accepted queries.
type Feature = fn(&Opened) -> bool;

const FEATURES: [(&str, Feature); 16] = [
    ("no rows in the run", |o| o.dig.run.total_rows() == 0),
    ("a table of the first schema left out, with rows", |o| {
        (0..o.dig.run.rows.len()).any(|d| o.dig.run.rows[d] > 0 && o.dig.f.fibre(d).is_empty())
    }),
    ("a column of the first schema left out", |o| {
        (0..o.dig.schemas[0].attributes.len()).any(|b| !o.dig.f.attributes.contains(&b))
    }),
    ("a column of the first schema copied twice", |o| {
        let images = &o.dig.f.attributes;
        (1..images.len()).any(|a| images[..a].contains(&images[a]))
    }),
    ("a table taken twice, with rows", |o| Opened::unites(&o.dig.f, &o.projected)),
    ("a link of Delta along a longer path", |o| o.dig.f.edges.iter().any(|e| e.len() > 1)),
    ("several tables joined to more rows than each has", |o| {
        let most = o.projected.rows.iter().max().copied().unwrap_or(0);
        Opened::unites(&o.dig.g, &o.projected) && o.joined.rows.iter().any(|&rows| rows > most)
    }),
    ("fewer families than combinations", |o| {
        let every: usize = o.projected.rows.iter().product();
        let most = o.joined.rows.iter().max().copied().unwrap_or(0);
        !o.dig.schemas[1].edges.is_empty() && most > 1 && most < every
    }),
    ("columns in another order", |o| !o.dig.g.attributes.is_sorted()),
    ("a table of the third schema without component", |o| {
        let [_, _, s3, _] = &o.dig.schemas;
        (0..s3.nodes).any(|d| {
            let from = |p: &Path| p.start == d;
            let ends = reference::paths::all_paths(s3).into_iter().filter(from);
            let mut ends = ends.map(|p| p.end(s3).expect("a path"));
            ends.all(|end| o.dig.g.fibre(end).is_empty())
        })
    }),
    ("two tables with rows united", |o| Opened::unites(&o.dig.h, &o.joined)),
    ("a table of the fourth schema that nothing goes to", |o| {
        (0..o.dig.schemas[3].nodes).any(|d| o.dig.h.fibre(d).is_empty())
    }),
    ("a lift of H longer than one edge", |o| {
        let [_, _, s3, s4] = &o.dig.schemas;
        let lifting = Lifting::new(s3, s4, &o.dig.h);
        (0..s3.nodes).any(|c| {
            let edges = s4.edges_from(o.dig.h.nodes[c]);
            edges.iter().any(|&e| lifting.edge_lift(c, e).edges.len() > 1)
        })
    }),
    ("equations without which H is uneven", |o| {
        let [_, _, mut h] = o.dig.mapped();
        h.s.equations.clear();
        h.t.equations.clear();
        !is_even(&h)
    }),
    ("links and values in the result", |o| {
        let full = |columns: usize| columns > 0;
        o.united.links.iter().map(Vec::len).any(full)
            && o.united.values.iter().map(Vec::len).any(full)
    }),
    ("a result that is neither the run nor Delta's nor Pi's", |o| {
        let before = [&o.dig.run, &o.projected, &o.joined];
        o.united.total_rows() > 1 && !before.contains(&&o.united)
    }),
];

#[test]
fn what_matters_to_the_query_occurs_among_the_accepted_cases() {
    let cases = stored_cases().into_iter().filter(|case| case.call == Call::Query);
    let open = |case: Case| Opened::of(&case, &reference_outcome(&case));
    let opened: Vec<Opened> = cases.filter_map(open).collect();
    for (name, feature) in FEATURES {
        let count = opened.iter().filter(|opened| feature(opened)).count();
        println!("{name}: {count} of {}", opened.len());
        assert!(count >= 3, "{name} occurs {count} times");
    }
}

fn refused(number: u8, place: u8) -> Result<usize, Refusal> {
    Err(Refusal { number, place })
}

/// The answers to the named queries.
fn answers() -> BTreeMap<String, Result<usize, Refusal>> {
    queries().into_iter().map(|case| (case.name.clone(), reference_outcome(&case).answer)).collect()
}

#[test]
fn the_named_queries_end_as_they_should() {
    let answers = answers();
    let check = |name: &str, expected: Result<usize, Refusal>| {
        assert_eq!(answers[name], expected, "{name}");
    };
    check("the base example", Ok(22));
    check("pairs in one table", Ok(2));
    check("case 6, in a query", Ok(18));
    check("512 rows of Delta", Ok(2));
    check("513 rows of Delta", refused(15, 0));
    check("512 rows of Pi", Ok(2));
    check("513 rows of Pi", refused(15, 0));
    check("512 rows of each", Ok(2));
    check("64 components", Ok(23));
    check("65 components", refused(14, 0));
    check("65 components without rows", refused(14, 0));
    check("no rows", Ok(4));
    check("tables without component", Ok(3));
    check("15 edges of F and G", Ok(54));
    check("15 edges of H", refused(12, 0));
    check("16 tables", Ok(54));
    for (place, name) in [(1, "sheets 1 and 8 empty"), (4, "sheets 4 and 5 empty")] {
        check(name, refused(1, place));
    }
    check("a tray of 21", refused(16, 0));
    check("a tray of 22", Ok(22));
}

/// 13, 14, 12, 15 of Delta, 15 of Pi, 16: the first that applies; none before a sheet's.
#[test]
fn of_two_faults_the_first_is_told() {
    let answers = answers();
    for (place, &one) in Fault::ALL.iter().enumerate() {
        assert_eq!(answers[&format!("faults {:?}", [one])], refused(one.number(), 0));
        assert_eq!(answers[&format!("{one:?} and a cut run")], refused(1, 8));
        for &other in &Fault::ALL[place + 1..] {
            assert_eq!(answers[&format!("faults {:?}", [one, other])], refused(one.number(), 0));
        }
    }
    assert!(answers["faults []"].is_ok());
    assert_eq!(answers[&format!("faults {:?}", Fault::ALL)], refused(13, 0));
}

/// A dent and a loss at joint 1 are a pair; all three anomalies stand in one table.
#[test]
fn the_base_example_has_one_pair() {
    let dig = base_dig();
    let outcome = reference_outcome(&dig.case("the base example"));
    let opened = Opened::of(&dig.case("the base example"), &outcome).expect("an accepted query");
    assert_eq!(opened.united.rows, [3, 2, 1]);
    assert_eq!(opened.united.links, [vec![1, 0, 1], vec![0], vec![2]]);
    assert_eq!(opened.united.values, [[700, 300, 705]]);
}

/// At full size each of the migrations has 512 rows.
#[test]
fn at_full_size_every_step_has_512_rows() {
    let case = full_dig().case("full size");
    let opened = Opened::of(&case, &reference_outcome(&case)).expect("an accepted query");
    let Opened { dig, projected, joined, united } = opened;
    for tables in [&dig.run, &projected, &joined, &united] {
        assert_eq!(tables.total_rows(), 512);
    }
    let counts = |s: &Schema| [s.nodes, s.edges.len(), s.attributes.len(), s.equations.len()];
    assert!(dig.schemas.iter().all(|schema| counts(schema) == [16, 32, 16, 32]));
}
