//! How the papers' cases and those at the limits end, each by its name.

use std::collections::BTreeMap;
use vectors::answer::reference_outcome;
use vectors::call::{Call, Case};
use vectors::limits::{limits, longest};
use vectors::papers::papers;
use vectors::report::End;

/// The ends of cases by call and name.
struct Ends(BTreeMap<(Call, String), Vec<End>>);

impl Ends {
    fn of(cases: Vec<Case>) -> Self {
        let mut ends: BTreeMap<(Call, String), Vec<End>> = BTreeMap::new();
        for case in cases {
            let end = End::of(case.call, &reference_outcome(&case));
            ends.entry((case.call, case.name)).or_default().push(end);
        }
        Ends(ends)
    }

    fn check(&self, call: Call, name: &str, expected: &[End]) {
        assert_eq!(self.0[&(call, name.to_string())], expected, "{name}");
    }

    /// Accepted at a limit, and refused beyond it.
    fn sides(&self, call: Call, at: &str, beyond: &str, refusal: End) {
        self.check(call, at, &[End::Accepted]);
        self.check(call, beyond, &[refusal]);
    }
}

fn refused(number: u8, place: u8) -> End {
    End::Refused { place, number }
}

#[test]
fn the_papers_cases_end_as_it_says() {
    let ends = Ends::of(papers());
    let check = |call, name, expected: &[End]| ends.check(call, name, expected);
    use End::*;
    check(Call::Sigma, "case 1: sigma", &[Accepted]);
    check(Call::Delta, "case 2: delta", &[Accepted]);
    check(Call::CheckPushed, "case 3: pushed", &[Accepted]);
    check(Call::CheckRaw, "case 3: raw", &[Accepted]);
    check(Call::CheckPushed, "case 3: raw as pushed", &[refused(17, 6)]);
    check(Call::PushedToRaw, "case 3: raw to raw", &[refused(17, 6)]);
    check(Call::Sigma, "case 4: sigma", &[refused(12, 0)]);
    check(Call::Pi, "case 4: pi", &[Accepted]);
    check(Call::CheckMapping, "case 5: mapping", &[Accepted]);
    check(Call::Sigma, "case 5: sigma", &[refused(12, 0)]);
    check(Call::Pi, "case 6: pi", &[Accepted]);
    check(Call::FirstPath, "case 7: abf, cdf", &[Accepted, Accepted]);
    check(Call::FirstPath, "case 8: ab, cd", &[Accepted, Accepted]);
    check(Call::PathChain, "case 7: abf, cdf", &[Accepted]);
    check(Call::PathChain, "case 7: ab, cd", &[Accepted]);
    check(Call::PathChain, "case 8: ab, cd", &[Unequal]);
    check(Call::PathChain, "case 8: abf, cdf", &[Accepted]);
    check(Call::CheckSchema, "case 9: schema", &[refused(1, 1)]);
    check(Call::FirstPath, "case 9: path", &[refused(2, 2), Accepted]);
    check(Call::CheckSchema, "case 10: 256 paths", &[Accepted]);
    check(Call::CheckSchema, "case 10: 257 paths", &[refused(6, 1)]);
    check(Call::CheckInstance, "case 11: 512 rows", &[Accepted]);
    check(Call::CheckInstance, "case 11: 513 rows", &[refused(3, 2)]);
    check(Call::CheckInstance, "case 11: clock 720", &[Accepted]);
    check(Call::CheckInstance, "case 11: clock 721", &[refused(10, 2)]);
    check(Call::CheckInstance, "case 11: clock 0", &[refused(10, 2)]);
    check(Call::Sigma, "case 12: a tray of 17 bytes", &[refused(16, 0)]);
    check(Call::Sigma, "case 12: a tray of 18 bytes", &[Accepted]);
}

/// For each of the five rows of case 3 one partner of the four is the right one.
#[test]
fn the_papers_matching_is_the_only_one() {
    let ends = Ends::of(papers());
    let only_matching = |call: Call| {
        let tried = ends.0.iter().filter(|((of, name), _)| *of == call && name.contains("for row"));
        tried.filter(|(_, ends)| ends.contains(&End::Accepted)).count()
    };
    assert_eq!([Call::CheckPushed, Call::CheckRaw].map(only_matching), [5, 5]);
}

#[test]
fn limits_are_met_on_both_sides() {
    let ends = Ends::of(limits());
    let sides = |call, at, beyond, refusal| ends.sides(call, at, beyond, refusal);
    sides(Call::CheckSchema, "16 nodes", "17 nodes", refused(3, 1));
    sides(Call::CheckSchema, "32 edges", "33 edges", refused(3, 1));
    sides(Call::CheckSchema, "16 attributes", "17 attributes", refused(3, 1));
    sides(Call::CheckSchema, "32 equations", "33 equations", refused(3, 1));
    sides(Call::CheckSchema, "256 paths, 32 equations", "more than 256 paths", refused(6, 1));
    sides(Call::CheckInstance, "512 rows in two tables", "513 rows in two tables", refused(3, 2));
    sides(
        Call::CheckInstance,
        "a link to the last of 511 rows",
        "a link beyond 511 rows",
        refused(9, 2),
    );
    sides(Call::CheckInstance, "kind 2, value 1", "kind 2, value 0", refused(10, 2));
    sides(Call::CheckInstance, "kind 2, value 720", "kind 2, value 721", refused(10, 2));
    sides(Call::CheckInstance, "kind 14, value 1", "kind 14, value 2", refused(10, 2));
    sides(Call::CheckInstance, "kind 15, value 0", "kind 15, value 1", refused(10, 2));
    sides(Call::Pi, "64 components", "65 components", refused(14, 0));
}

#[test]
fn what_is_migrated_is_limited() {
    let ends = Ends::of(limits());
    let check = |call, name, expected: &[End]| ends.check(call, name, expected);
    check(Call::Pi, "65 components without rows", &[refused(14, 0)]);
    check(Call::Pi, "64 components of two rows", &[refused(15, 0)]);
    let together = "rows of all tables together";
    let [full, over] = [End::Accepted, refused(15, 0)];
    check(Call::Delta, together, &[full, over, over]);
    check(Call::Sigma, together, &[full, full]);
    check(Call::Pi, together, &[full, over, full, over, full]);
    check(Call::CheckRaw, together, &[full, over, over, over, full, full]);
    check(Call::PushedToRaw, together, &[full, over, over, over, full, refused(16, 0)]);
    let uneven = refused(12, 0);
    check(Call::Sigma, "lifts of two and three edges", &[uneven, uneven, full]);
    // No colouring with 3 colours of 4 vertices; 24 with 4, and 24 to the 6th.
    check(Call::Pi, "colourings", &[full, full, over]);
}

#[test]
fn the_longest_sheets_end_as_shorter_ones() {
    let ends = Ends::of(longest());
    let check = |call, name, expected: &[End]| ends.check(call, name, expected);
    let full = End::Accepted;
    check(Call::CheckInstance, "the longest instance", &[full]);
    check(Call::CheckInstance, "the longest, cut", &[refused(1, 2)]);
    check(Call::CheckInstance, "the longest, dangling", &[refused(9, 2)]);
    check(Call::Sigma, "the longest, pushed", &[full]);
    check(Call::Pi, "the longest, joined", &[full]);
    check(Call::Query, "the longest, dug", &[full]);
    check(Call::CheckSchema, "65,535 bytes", &[refused(2, 1)]);
}
