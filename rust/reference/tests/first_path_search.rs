//! The first path of a class, request C-14 of document 02, against the chains of
//! C-11, and all that relies on it: "(mapping check, evenness, components) uses
//! the new answer".

mod common;

use common::*;
use reference::paths::all_paths;
use reference::plain::*;
use reference::*;
use std::collections::BTreeSet;
use vectors::even::even_mapping;
use vectors::instances::instance as any_instance;
use vectors::mappings::{mapping as any_mapping, Mapped};
use vectors::random::Random;
use vectors::schemas::add_equations;

/// Whether a chain leads from `p` to `q`.
fn has_chain(s: &Schema, p: &Path, q: &Path) -> bool {
    chain(s, p, q).expect("accepted sheets").is_some()
}

/// The answers to the paths of a schema are what request C-14 says.  Gives the
/// number of paths that are not their own answer.
fn check_answers(s: &Schema) -> usize {
    let paths = all_paths(s);
    let mut others = 0;
    for p in &paths {
        let sheet = first_path(&s.to_sheet(), &p.to_sheet()).expect("accepted sheets");
        assert!((1..=11).contains(&sheet.len()));
        let answer = Path::accept(s, &sheet).expect("a path sheet");
        // It is a path with the same start and end, written as a whole sheet.
        assert_eq!(answer.to_sheet(), sheet);
        assert_eq!((answer.start, answer.end(s)), (p.start, p.end(s)));
        // It is equal to the lent path, and none before it is.
        assert!(has_chain(s, p, &answer) && answer <= *p, "{s:?} {p:?}");
        let mut before = paths.iter().take_while(|q| **q != answer);
        assert!(!before.any(|q| has_chain(s, p, q)), "{s:?} {p:?}");
        // It is its own answer.
        assert_eq!(first(s, &answer), answer);
        others += usize::from(answer != *p);
    }
    others
}

#[test]
fn the_answer_is_the_first_path_that_a_chain_leads_to() {
    let mut random = Random::seeded(21);
    let mut others = 0;
    for _ in 0..600 {
        others += check_answers(&any_schema(&mut random));
    }
    for _ in 0..60 {
        let Mapped { s, t, .. } = any_mapping(&mut random, true);
        others += check_answers(&s) + check_answers(&t);
    }
    for _ in 0..10 {
        let mut s = doubled_chain(5);
        add_equations(&mut random, &mut s, 4, |p, q| p.edges.len().max(q.edges.len()) <= 2);
        others += check_answers(&s);
    }
    assert!(others > 1000, "{others} paths are not their own answer");
}

/// A mapping, accepted but for rules that T may lack: either T has lost some of
/// its equations, or S has its own over the nodes and edges of T.
fn fitting_mapping(random: &mut Random) -> Mapped {
    if random.once_in(2) {
        let mut mapped = any_mapping(random, true);
        mapped.t.equations.retain(|_| !random.once_in(2));
        return mapped;
    }
    let t = any_schema(random);
    let mut s = Schema { equations: vec![], ..t.clone() };
    for _ in 0..1 + random.below(3) {
        let left = any_path(random, &s);
        let right = random.one_of(&alongside(&s, &left)).clone();
        s.equations.push(Equation { left, right });
    }
    let f = identity(&s);
    Mapped { s, t, f }
}

#[test]
fn a_mapping_breaks_a_rule_exactly_where_the_images_have_other_answers() {
    let mut random = Random::seeded(22);
    let (mut kept, mut broken) = (0, 0);
    for _ in 0..1500 {
        let mapped = fitting_mapping(&mut random);
        let image_answer = |p: &Path| first(&mapped.t, &mapped.f.path_image(p));
        let rules = &mapped.s.equations;
        let all_kept = rules.iter().all(|r| image_answer(&r.left) == image_answer(&r.right));
        let expected = if all_kept { Ok(()) } else { refused(8, 3) };
        let (s, t, f) = mapped.sheets();
        assert_eq!(check_mapping(&s, &t, &f), expected);
        kept += usize::from(all_kept && rules.iter().any(|rule| rule.left != rule.right));
        broken += usize::from(!all_kept);
    }
    assert!(kept > 100 && broken > 100, "{kept} kept, {broken} broken");
}

/// Whether a mapping is even, told from the answers to paths.
fn is_even(mapped: &Mapped) -> bool {
    let Mapped { s, t, f } = mapped;
    let (s_paths, t_paths) = (all_paths(s), all_paths(t));
    (0..s.nodes).all(|c| {
        let from_c: Vec<&Path> = s_paths.iter().filter(|p| p.start == c).collect();
        let lifted_once = |q: &Path| {
            let over_q = |p: &&&Path| first(t, &f.path_image(p)) == first(t, q);
            let lifts: BTreeSet<Path> = from_c.iter().filter(over_q).map(|p| first(s, p)).collect();
            lifts.len() == 1
        };
        let columns_at_c: Vec<usize> =
            s.attributes_at(c).into_iter().map(|a| f.attributes[a]).collect();
        let has_one_column = |b: &usize| columns_at_c.iter().filter(|&a| a == b).count() == 1;
        t_paths.iter().filter(|q| q.start == f.nodes[c]).all(lifted_once)
            && t.attributes_at(f.nodes[c]).iter().all(has_one_column)
    })
}

#[test]
fn sigma_finds_even_what_the_answers_find_even() {
    let mut random = Random::seeded(23);
    let (mut even, mut uneven) = (0, 0);
    for round in 0..400 {
        let mut mapped = match round % 2 {
            0 => even_mapping(&mut random),
            _ => any_mapping(&mut random, true),
        };
        // Fewer equations of S, so that more lifts may be unequal.
        if random.once_in(3) {
            mapped.s.equations.retain(|_| !random.once_in(2));
        }
        let run = any_instance(&mut random, &mapped.s, 1);
        let (s, t, f) = mapped.sheets();
        let pushed = sigma(&s, &t, &f, &run.to_sheet());
        match is_even(&mapped) {
            true => assert!(pushed.is_ok()),
            false => assert_eq!(pushed, refused(12, 0)),
        }
        even += usize::from(pushed.is_ok());
        uneven += usize::from(pushed.is_err());
    }
    assert!(even > 50 && uneven > 50, "{even} even, {uneven} uneven");
}

/// Pi of a table of two rows along the mapping of one node to `far`, told from
/// the answers to paths; none if it is overfull.
fn gathered_pair(t: &Schema, far: usize) -> Option<Instance> {
    let paths = all_paths(t);
    let components_at = |d: usize| -> Vec<Path> {
        let mut to_far: Vec<&Path> = paths.iter().filter(|g| g.start == d).collect();
        to_far.retain(|g| g.end(t) == Some(far));
        let firsts: BTreeSet<Path> = to_far.into_iter().map(|g| first(t, g)).collect();
        firsts.into_iter().collect()
    };
    let components: Vec<Vec<Path>> = (0..t.nodes).map(components_at).collect();
    if components.iter().any(|table| table.len() > 9) {
        return None;
    }
    let rows: Vec<usize> = components.iter().map(|table| 1 << table.len()).collect();
    if rows.iter().sum::<usize>() > 512 {
        return None;
    }
    // A row's number has a binary digit for each component, the first leading.
    let digit = |d: usize, row: usize, k: usize| (row >> (components[d].len() - 1 - k)) & 1;
    let link = |e: usize| {
        let Edge { source, target } = t.edges[e];
        let place = |g: &Path| {
            let after_e = first(t, &Path::along(t, e).followed_by(g));
            components[source].iter().position(|h| *h == after_e).expect("a component")
        };
        let places: Vec<usize> = components[target].iter().map(place).collect();
        let number = |row| places.iter().fold(0, |sum, &k| 2 * sum + digit(source, row, k));
        (0..1 << components[source].len()).map(number).collect()
    };
    let links = (0..t.edges.len()).map(link).collect();
    Some(Instance { rows, links, values: vec![] })
}

#[test]
fn the_components_of_pi_are_the_answers_in_their_order() {
    let mut random = Random::seeded(24);
    let (one, pair) = (graph(1, &[]).to_sheet(), instance(&[2], &[]).to_sheet());
    let mut several = 0;
    for _ in 0..600 {
        let t = any_schema(&mut random);
        let far = random.below(t.nodes);
        let Some(expected) = gathered_pair(&t, far) else { continue };
        let f = mapping(&[far], &[]).to_sheet();
        several += usize::from(expected.total_rows() > 8 && !t.equations.is_empty());
        assert_eq!(pi(&one, &t.to_sheet(), &f, &pair), Ok(expected.to_sheet()), "{t:?} {far}");
    }
    assert!(several > 100, "{several} with several components");
}
