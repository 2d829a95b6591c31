//! The first paths that the stored cases ask for, and those of a run by chance.

use reference::classes::Classes;
use reference::paths::all_paths;
use reference::plain::*;
use std::collections::{BTreeMap, BTreeSet};
use vectors::answer::reference_outcome;
use vectors::build::path;
use vectors::call::{Call, Case};
use vectors::first_paths::first_paths;
use vectors::full::full;
use vectors::limits::limits;
use vectors::papers::papers;
use vectors::record::stored_cases;
use vectors::stream::Chance;

/// An accepted question, and its answer.
struct Asked {
    schema: Schema,
    path: Path,
    first: Path,
}

impl Asked {
    /// The question of a case, if it is accepted.
    fn of(case: &Case) -> Option<Self> {
        let outcome = reference_outcome(case);
        let length = outcome.answer.ok()?;
        let schema = Schema::accept(&case.sheets[0]).expect("an accepted schema");
        let [path, first] = [&case.sheets[1], &outcome.tray[..length]]
            .map(|sheet| Path::accept(&schema, sheet).expect("a path"));
        Some(Asked { schema, path, first })
    }
}

/// The accepted questions of some cases.
fn asked(cases: impl Iterator<Item = Case>) -> impl Iterator<Item = Asked> {
    let of_call = cases.filter(|case| case.call == Call::FirstPath);
    of_call.filter_map(|case| Asked::of(&case))
}

/// The first paths of each case of a name.
fn firsts_of(name: &str) -> Vec<Path> {
    let cases = papers().into_iter().chain(limits()).chain(full());
    asked(cases.filter(|case| case.name == name)).map(|asked| asked.first).collect()
}

#[test]
fn the_first_paths_of_the_papers_cases_are_known() {
    let (ab, cd, abf) = (path(0, &[0, 1]), path(0, &[2, 3]), path(0, &[0, 1, 4]));
    assert_eq!(firsts_of("case 7: ab, cd"), [ab.clone(), ab.clone()]);
    assert_eq!(firsts_of("case 7: abf, cdf"), [abf.clone(), abf.clone()]);
    assert_eq!(firsts_of("case 8: ab, cd"), [ab, cd]);
    assert_eq!(firsts_of("case 8: abf, cdf"), [abf.clone(), abf]);
    assert_eq!(firsts_of("case 9: path"), [path(0, &[0])]);
}

#[test]
fn the_first_paths_of_small_classes_are_known() {
    let check = |name: &str, first: Path| assert_eq!(firsts_of(name), [first], "{name}");
    check("a trivial path", path(4, &[]));
    check("alone in its class", path(0, &[0]));
    check("the first of its class", path(0, &[0, 1, 4]));
    check("a shorter path is first", path(0, &[0, 1, 4]));
    check("another path of its length is first", path(0, &[0, 1, 4]));
    check("another start", path(1, &[1, 4]));
    check("length decides before edges", path(0, &[2]));
    check("the first edge decides", path(0, &[0, 3]));
    check("by way of a longer path", path(0, &[0]));
    check("by way of a longer path, inside", path(0, &[0, 4]));
    let edge = |edge: usize| path(0, &[edge]);
    assert_eq!(firsts_of("equations (2, 3) and (1, 0)"), [0, 0, 2, 2].map(edge));
    assert_eq!(firsts_of("equations (3, 1) and (1, 2)"), [0, 1, 1, 1].map(edge));
    assert_eq!(firsts_of("three equations one after the other"), [0; 4].map(edge));
}

#[test]
fn the_first_paths_at_the_limits_are_known() {
    let check = |name: &str, firsts: &[Path]| assert_eq!(firsts_of(name), firsts, "{name}");
    let (first, other) = (path(0, &[0, 2, 4, 6, 8]), path(0, &[1, 3, 5, 7, 9]));
    check("two of 256 paths", &[first.clone(), first.clone(), first.clone(), other]);
    check("full.first_path", &[first]);
    let [corner, edge] = [path(0, &[0, 17]), path(0, &[30])];
    check("a class of 221 paths", &[corner.clone(), corner]);
    check("a class of 223 paths", &[edge.clone(), edge.clone(), edge]);
    let long = |edges: usize| path(0, &(0..edges).collect::<Vec<_>>());
    check("15 and 14 edges", &[long(15), long(14)]);
    check("15 edges for 15", &[long(15)]);
    check("one edge for 15", &[path(0, &[16])]);
    check("15 edges alone", &[long(15)]);
    check("the last node", &[path(15, &[])]);
}

/// Each tray is refused where it is shorter than the first path, and no other is.
#[test]
fn trays_of_every_length_occur() {
    for needed in [1, 3, 11] {
        for length in 0..needed + 3 {
            let name = format!("a tray of {length} for {needed}");
            let mut cases = first_paths().into_iter().filter(|case| case.name == name);
            let case = cases.next().expect("a case");
            let answer = reference_outcome(&case).answer.map_err(|refusal| refusal.number);
            assert_eq!(answer, if length < needed { Err(16) } else { Ok(needed) }, "{name}");
        }
    }
}

/// What an accepted question is there for.
#[derive(Debug, Clone, Copy, PartialEq, Eq, PartialOrd, Ord)]
enum Feature {
    Trivial,
    Alone,
    FirstOfSeveral,
    Shorter,
    OtherEdges,
    OneStep,
    TwoEquations,
    FourEquations,
    ByWayOfALonger,
    FiftyEqual,
}

use Feature::*;

/// All of them.
const ALL: [Feature; 10] = [
    Trivial,
    Alone,
    FirstOfSeveral,
    Shorter,
    OtherEdges,
    OneStep,
    TwoEquations,
    FourEquations,
    ByWayOfALonger,
    FiftyEqual,
];

/// The paths that a shortest chain leads over, and the equations that it takes.
fn way(asked: &Asked) -> (Vec<Path>, BTreeSet<usize>) {
    let Asked { schema, path, first } = asked;
    let chain = Chain::between(schema, path, first).expect("a chain to the first");
    let equations = chain.steps.iter().map(|step| step.equation).collect();
    let mut over = vec![path.clone()];
    for step in chain.steps {
        let ways = over[over.len() - 1].steps(schema);
        let next = ways.into_iter().find(|(other, _)| *other == step).expect("a step of the path");
        over.push(next.1);
    }
    (over, equations)
}

fn features(asked: &Asked) -> BTreeSet<Feature> {
    let Asked { schema, path, first } = asked;
    let classes = Classes::of(schema);
    let equal = all_paths(schema).iter().filter(|other| classes.first(other) == first).count();
    let (over, equations) = way(asked);
    let is_met = |feature: &Feature| match feature {
        Trivial => path.edges.is_empty(),
        Alone => equal == 1 && !path.edges.is_empty(),
        FirstOfSeveral => path == first && equal > 1,
        Shorter => first.edges.len() < path.edges.len(),
        OtherEdges => first.edges.len() == path.edges.len() && first != path,
        OneStep => over.len() == 2,
        TwoEquations => equations.len() >= 2,
        FourEquations => equations.len() >= 4,
        ByWayOfALonger => over.iter().any(|other| other.edges.len() > path.edges.len()),
        FiftyEqual => equal >= 50,
    };
    ALL.into_iter().filter(is_met).collect()
}

/// Each feature is that of three questions and more.
fn each_occurs(cases: impl Iterator<Item = Case>) {
    let features: Vec<BTreeSet<Feature>> = asked(cases).map(|asked| features(&asked)).collect();
    for feature in ALL {
        let count = features.iter().filter(|of| of.contains(&feature)).count();
        println!("{feature:?} occurs {count} times");
        assert!(count >= 3, "{feature:?} occurs {count} times");
    }
}

#[test]
fn every_kind_of_first_path_occurs_among_the_stored_cases() {
    each_occurs(stored_cases().into_iter());
}

#[test]
fn every_kind_of_first_path_occurs_by_chance() {
    each_occurs(Chance::seeded(5).take(12_000));
}

/// Two different paths of one schema, with one start and one end, are asked for: often
/// equal ones, and often unequal ones.
#[test]
fn equal_and_unequal_paths_of_one_schema_occur_among_the_stored_cases() {
    let mut schemas: BTreeMap<Vec<u8>, BTreeSet<(Path, Path)>> = BTreeMap::new();
    for Asked { schema, path, first } in asked(stored_cases().into_iter()) {
        schemas.entry(schema.to_sheet()).or_default().insert((path, first));
    }
    let (mut equal, mut unequal) = (0, 0);
    for (sheet, asked) in schemas {
        let schema = Schema::accept(&sheet).expect("an accepted schema");
        let ends = |p: &Path| (p.start, p.end(&schema));
        for (place, (p, first)) in asked.iter().enumerate() {
            let parallel = asked.iter().take(place).filter(|(q, _)| ends(p) == ends(q));
            for (_, other) in parallel {
                *(if first == other { &mut equal } else { &mut unequal }) += 1;
            }
        }
    }
    println!("{equal} pairs of equal paths, {unequal} of unequal ones");
    assert!(equal > 50 && unequal > 20, "{equal} equal, {unequal} unequal");
}
