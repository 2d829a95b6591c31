//! The search for a chain of steps, request C-11 of document 02, against trying
//! all chains of few steps.

mod common;

use common::*;
use reference::paths::all_paths;
use reference::plain::*;
use vectors::random::Random;

/// The path that a step by its numbers makes of `p`, or none.
fn after_step(schema: &Schema, p: &Path, [equation, direction, before]: Numbers) -> Option<Path> {
    let rule = &schema.equations[equation];
    let (old, new) = [(&rule.left, &rule.right), (&rule.right, &rule.left)][direction];
    let head = path(p.start, p.edges.get(..before)?);
    let part = p.edges.get(before..before + old.edges.len())?;
    let tail = &p.edges[before + old.edges.len()..];
    let is_there = head.end(schema) == Some(old.start) && part == old.edges;
    is_there.then(|| path(p.start, &[&head.edges, &new.edges, tail].concat()))
}

/// The numbers that a step may have, in their order.
fn all_numbers(schema: &Schema) -> Vec<Numbers> {
    let mut all = Vec::new();
    for equation in 0..schema.equations.len() {
        for direction in 0..2 {
            all.extend((0..16).map(|before| [equation, direction, before]));
        }
    }
    all
}

/// All chains of one step more, in the order of their numbers, each with the
/// path that it leads to.
fn longer(schema: &Schema, chains: &[(Vec<Numbers>, Path)]) -> Vec<(Vec<Numbers>, Path)> {
    let mut all = Vec::new();
    for (steps, end) in chains {
        for step in all_numbers(schema) {
            let next = after_step(schema, end, step);
            all.extend(next.map(|next| ([&steps[..], &[step]].concat(), next)));
        }
    }
    all
}

/// The paths that some chain leads to from `p`: more are added until there is
/// none to add.
fn reached(schema: &Schema, p: &Path) -> Vec<Path> {
    let mut found = vec![p.clone()];
    let mut at = 0;
    while at < found.len() {
        for step in all_numbers(schema) {
            let next = after_step(schema, &found[at], step);
            found.extend(next.filter(|next| !found.contains(next)));
        }
        at += 1;
    }
    found
}

#[test]
fn the_search_agrees_with_trying_all_chains() {
    const MOST_STEPS: usize = 4;
    let mut random = Random::seeded(20);
    let (mut nones, mut longer_ones, mut ties, mut by_steps) = (0, 0, 0, [0; MOST_STEPS + 1]);
    for _ in 0..1500 {
        let s = any_schema(&mut random);
        let p = any_path(&mut random, &s);
        let equal = reached(&s, &p);
        // All chains from p of 0, 1, 2, ... steps.
        let mut chains = vec![vec![(vec![], p.clone())]];
        for steps in 0..MOST_STEPS {
            chains.push(longer(&s, &chains[steps]));
        }
        for q in all_paths(&s) {
            let given = chain(&s, &p, &q).expect("accepted sheets");
            let to_q = |all: &Vec<(Vec<Numbers>, Path)>| -> Vec<Vec<Numbers>> {
                let ending_there = all.iter().filter(|(_, end)| *end == q);
                ending_there.map(|(steps, _)| steps.clone()).collect()
            };
            let shortest = chains.iter().map(to_q).find(|some| !some.is_empty());
            match (shortest, given) {
                (Some(shortest), given) => {
                    assert!(shortest.windows(2).all(|pair| pair[0] < pair[1]));
                    assert_eq!(given, Some(written(&shortest[0])), "{s:?} {p:?} {q:?}");
                    by_steps[shortest[0].len()] += 1;
                    ties += usize::from(shortest.len() > 1);
                }
                (None, Some(given)) => {
                    assert!(equal.contains(&q), "{s:?} {p:?} {q:?}");
                    assert!(usize::from(given[0]) > MOST_STEPS, "{s:?} {p:?} {q:?}");
                    longer_ones += 1;
                }
                (None, None) => {
                    assert!(!equal.contains(&q), "{s:?} {p:?} {q:?}");
                    nones += 1;
                }
            }
        }
    }
    println!("none {nones}, by steps {by_steps:?}, longer {longer_ones}, ties {ties}");
    assert!(nones > 1000 && ties > 100 && by_steps.iter().all(|&cases| cases > 20));
}

#[test]
fn there_is_a_chain_exactly_where_the_first_paths_are_the_same() {
    let mut random = Random::seeded(11);
    let (mut chains, mut nones) = (0, 0);
    for _ in 0..200 {
        let s = any_schema(&mut random);
        let paths = all_paths(&s);
        let firsts: Vec<Path> = paths.iter().map(|p| first(&s, p)).collect();
        for (p, p_first) in paths.iter().zip(&firsts) {
            for (q, q_first) in paths.iter().zip(&firsts) {
                let has_chain = chain(&s, p, q).expect("accepted sheets").is_some();
                assert_eq!(has_chain, p_first == q_first, "{s:?} {p:?} {q:?}");
                chains += usize::from(has_chain && p != q);
                nones += usize::from(!has_chain);
            }
        }
    }
    println!("chains {chains}, none {nones}");
    assert!(chains > 1000 && nones > 1000);
}
