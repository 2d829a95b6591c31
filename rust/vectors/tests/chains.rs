//! The chains that the stored cases ask for, and those of a run by chance.

use reference::bits::BitReader;
use reference::classes::Classes;
use reference::plain::*;
use std::collections::BTreeSet;
use vectors::answer::{reference_outcome, result_length};
use vectors::call::{Call, Case};
use vectors::chains::{chains, long_way, longer_way};
use vectors::papers::papers;
use vectors::questions::Question;
use vectors::record::stored_cases;
use vectors::stream::Chance;

/// A step as it is written: equation, direction, edges before.
type Numbers = [usize; 3];

/// The steps of the chain that a case ends with; nothing where it has none.
fn steps(case: &Case) -> Option<Vec<Numbers>> {
    let outcome = reference_outcome(case);
    let length = outcome.answer.ok().filter(|&length| length > 0)?;
    let mut reader = BitReader::new(&outcome.tray[..length]);
    let count = reader.number(8).expect("a count");
    let mut next = |width: u32| reader.number(width).expect("a step");
    let steps = (0..count).map(|_| [next(5), next(1), next(4)]).collect();
    reader.finish().expect("the end");
    Some(steps)
}

/// The steps of each case of a name.
fn steps_of(name: &str) -> Vec<Option<Vec<Numbers>>> {
    let cases = papers().into_iter().chain(chains()).filter(|case| case.call == Call::PathChain);
    cases.filter(|case| case.name == name).map(|case| steps(&case)).collect()
}

#[test]
fn the_chains_of_the_papers_cases_are_known() {
    for name in ["case 7: abf, cdf", "case 7: ab, cd", "case 8: abf, cdf"] {
        assert_eq!(steps_of(name), [Some(vec![[0, 0, 0]])], "{name}");
    }
    assert_eq!(steps_of("case 8: ab, cd"), [None]);
}

#[test]
fn the_chains_at_the_limits_are_known() {
    for before in [14, 13, 1, 0] {
        let name = format!("equation 31 back after {before} edges");
        assert_eq!(steps_of(&name), [Some(vec![[31, 1, before]])]);
    }
    let two = |one: Numbers, other: Numbers| Some(vec![one, other]);
    assert_eq!(steps_of("two steps"), [two([0, 0, 1], [1, 0, 3]), two([0, 0, 2], [1, 0, 1])]);
    assert_eq!(steps_of("two steps back"), [two([0, 1, 1], [1, 1, 2]), two([0, 1, 3], [1, 1, 1])]);
    let first = steps_of("the first of two chains");
    assert_eq!(first, [two([0, 0, 0], [2, 0, 0]), two([2, 1, 0], [0, 1, 0])]);
    let first = steps_of("the first step decides");
    assert_eq!(first, [two([1, 0, 0], [3, 0, 0]), two([0, 1, 0], [2, 1, 0])]);
    let first = steps_of("the equation decides before the direction");
    assert_eq!(first, [two([0, 1, 0], [2, 0, 0]), two([2, 1, 0], [0, 0, 0])]);
    let one = |numbers: Numbers| Some(vec![numbers]);
    let shorter = steps_of("the shorter chain has larger numbers");
    assert_eq!(shorter, [one([3, 1, 0]), one([3, 0, 0])]);
    assert_eq!(steps_of("equations that come twice"), [one([1, 0, 0]), one([1, 1, 0])]);
    let others = steps_of("equations that change nothing");
    assert_eq!(others, [two([3, 0, 0], [4, 0, 0]), two([4, 1, 0], [3, 1, 0])]);
    for name in ["a path and itself", "a trivial path and itself"] {
        assert_eq!(steps_of(name), [Some(vec![])]);
    }
    let starts_and_ends = ["another start", "another end", "another start and end"];
    for name in [&starts_and_ends[..], &["two trivial paths", "no equation"]].concat() {
        assert_eq!(steps_of(name), [None], "{name}");
    }
}

/// The numbers of paths, of equations and of paths equal to the first.
fn sizes(question: &Question) -> [usize; 3] {
    let Question { schema, from, .. } = question;
    let paths = reference::paths::all_paths(schema);
    let classes = Classes::of(schema);
    let equal = paths.iter().filter(|path| classes.first(path) == classes.first(from)).count();
    [paths.len(), schema.equations.len(), equal]
}

#[test]
fn the_longest_chains_are_as_long_as_is_said() {
    assert_eq!(sizes(&long_way()), [254, 28, 221]);
    assert_eq!(sizes(&longer_way()), [256, 30, 223]);
    let count = |question: Question| steps(&question.chain("")).map(|steps| steps.len());
    assert_eq!(count(long_way()), Some(220));
    assert_eq!(count(longer_way()), Some(222));
    assert_eq!(result_length(&longer_way().chain("")), Some(279));
}

/// What a case with a chain or without one is there for.
#[derive(Debug, Clone, Copy, PartialEq, Eq, PartialOrd, Ord)]
enum Feature {
    NoSteps,
    OneStep,
    TwoSteps,
    TenSteps,
    FiftySteps,
    EdgesBefore,
    BothDirections,
    AnotherOfTheSameLength,
    TrivialPaths,
    NoChain,
    NoChainAndNoTray,
    OtherStart,
    OtherEnd,
}

use Feature::*;

/// All of them.
const ALL: [Feature; 13] = [
    NoSteps,
    OneStep,
    TwoSteps,
    TenSteps,
    FiftySteps,
    EdgesBefore,
    BothDirections,
    AnotherOfTheSameLength,
    TrivialPaths,
    NoChain,
    NoChainAndNoTray,
    OtherStart,
    OtherEnd,
];

/// Whether another chain is as short: a step that comes as much nearer to the
/// last path, from some path of this one.
fn has_another(schema: &Schema, from: &Path, to: &Path, chain: &[Numbers]) -> bool {
    let mut here = from.clone();
    for (place, numbers) in chain.iter().enumerate() {
        let left = chain.len() - place - 1;
        let mut ways = here.steps(schema);
        let taken = |step: &Step| [step.equation, step.direction, step.before] == *numbers;
        let is_near = |next: &Path| {
            Chain::between(schema, next, to).is_some_and(|rest| rest.steps.len() == left)
        };
        if ways.iter().any(|(step, next)| !taken(step) && is_near(next)) {
            return true;
        }
        let at = ways.iter().position(|(step, _)| taken(step)).expect("a step of the path");
        here = ways.swap_remove(at).1;
    }
    assert_eq!(here, *to);
    false
}

/// What an accepted case is there for.
fn features(case: &Case) -> BTreeSet<Feature> {
    let mut found = BTreeSet::new();
    if reference_outcome(case).answer.is_err() {
        return found;
    }
    let schema = Schema::accept(&case.sheets[0]).expect("an accepted schema");
    let [p, q] = [1, 2].map(|at| Path::accept(&schema, &case.sheets[at]).expect("a path"));
    let mut add = |feature: Feature, is_met: bool| {
        if is_met {
            found.insert(feature);
        }
    };
    add(TrivialPaths, p.edges.is_empty() && q.edges.is_empty());
    let Some(chain) = steps(case) else {
        add(NoChain, true);
        add(NoChainAndNoTray, case.tray == 0);
        add(OtherStart, p.start != q.start);
        add(OtherEnd, p.start == q.start && p.end(&schema) != q.end(&schema));
        return found;
    };
    add(NoSteps, chain.is_empty());
    add(OneStep, chain.len() == 1);
    add(TwoSteps, chain.len() == 2);
    add(TenSteps, chain.len() >= 10);
    add(FiftySteps, chain.len() >= 50);
    add(EdgesBefore, chain.iter().any(|[_, _, before]| *before > 0));
    add(BothDirections, [0, 1].iter().all(|d| chain.iter().any(|step| step[1] == *d)));
    add(AnotherOfTheSameLength, chain.len() < 50 && has_another(&schema, &p, &q, &chain));
    found
}

/// How many cases have each feature.
fn counts(cases: impl Iterator<Item = Case>) -> Vec<(Feature, usize)> {
    let asked = cases.filter(|case| case.call == Call::PathChain);
    let features: Vec<BTreeSet<Feature>> = asked.map(|case| features(&case)).collect();
    let count = |feature: Feature| features.iter().filter(|of| of.contains(&feature)).count();
    ALL.map(|feature| (feature, count(feature))).to_vec()
}

#[test]
fn every_kind_of_chain_occurs_among_the_stored_cases() {
    for (feature, count) in counts(stored_cases().into_iter()) {
        println!("{feature:?} occurs {count} times");
        assert!(count >= 3, "{feature:?} occurs {count} times");
    }
}

#[test]
fn every_kind_of_chain_occurs_by_chance() {
    for (feature, count) in counts(Chance::seeded(5).take(12_000)) {
        println!("{feature:?} occurs {count} times");
        assert!(count >= 3, "{feature:?} occurs {count} times");
    }
}
