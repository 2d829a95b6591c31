//! Composed mappings: the laws that hold of the library's own calls, on a short run.
//! `cargo run --release -p differential -- compose 100000` is a long one.

use differential::composition_laws::{
    by_the_library, try_all_laws, try_laws, Compose, LawCase, Met, Sheet,
};
use migration::Refusal;
use reference::composed::composed;
use reference::plain::{Mapping, Path, Schema};
use std::collections::BTreeSet;
use vectors::build::identity;
use vectors::random::Random;

/// So many of the cases must meet each law in each way.
#[test]
fn the_laws_hold_of_the_library() {
    let met = try_all_laws(11, 8000, by_the_library).unwrap_or_else(|law| panic!("{law}"));
    print!("{met}");
    let Met { tried, all_accepted, with_rows, composite_alone, overfull, even } = met;
    assert_eq!(tried, 8000);
    assert!(all_accepted >= 7000, "{all_accepted} with all three Deltas accepted");
    assert!(with_rows >= 2000, "{with_rows} with links and values");
    assert!(composite_alone >= 20, "{composite_alone} with Delta along G alone overfull");
    assert!(overfull >= 100, "{overfull} overfull along the composed mapping");
    assert!(even >= 1000, "{even} of even mappings");
}

/// A composition by other rules: the composed mapping, altered.
fn altered(sheets: [&[u8]; 5], alter: fn([&Schema; 3], &Mapping, &Mapping, &mut Mapping)) -> Sheet {
    let told = |number: u8| Refusal { number, place: 0 };
    let [s, t, u, f, g] = sheets;
    let [s, t, u] = [s, t, u].map(Schema::accept);
    let (s, t, u) = (s.map_err(told)?, t.map_err(told)?, u.map_err(told)?);
    let f = Mapping::accept(&s, &t, f).map_err(told)?;
    let g = Mapping::accept(&t, &u, g).map_err(told)?;
    let mut right = composed(&s, &f, &g);
    alter([&s, &t, &u], &f, &g, &mut right);
    Ok(right.to_sheet())
}

/// Unaltered, it is what the library gives.
fn unaltered(sheets: [&[u8]; 5]) -> Sheet {
    altered(sheets, |_, _, _, _| {})
}

fn joined_in_the_other_order(sheets: [&[u8]; 5]) -> Sheet {
    altered(sheets, |_, f, g, right| {
        let back = |image: &Vec<usize>| image.iter().rev().map(|&e| g.edges[e].clone()).collect();
        let images = f.edges.iter().map(back).map(|images: Vec<Vec<usize>>| images.concat());
        right.edges = images.collect();
    })
}

fn without_the_attributes_of_g(sheets: [&[u8]; 5]) -> Sheet {
    altered(sheets, |_, f, _, right| right.attributes = f.attributes.clone())
}

fn without_the_nodes_of_g(sheets: [&[u8]; 5]) -> Sheet {
    altered(sheets, |_, f, _, right| right.nodes = f.nodes.clone())
}

/// Each image the first path that equals it.
fn take_first_paths(s: &Schema, u: &Schema, right: &mut Mapping) {
    let images = (0..s.edges.len()).map(|edge| right.edge_image(s, edge));
    right.edges = images.map(|image: Path| image.first_equal(u).edges).collect();
}

fn by_first_paths(sheets: [&[u8]; 5]) -> Sheet {
    altered(sheets, |[s, _, u], _, _, right| take_first_paths(s, u, right))
}

fn of_the_first_image_alone(sheets: [&[u8]; 5]) -> Sheet {
    altered(sheets, |_, f, g, right| {
        let first = |image: &Vec<usize>| image.first().map_or(vec![], |&e| g.edges[e].clone());
        right.edges = f.edges.iter().map(first).collect();
    })
}

/// Calls that compose otherwise break a law.
#[test]
fn other_compositions_are_found() {
    assert_eq!(try_all_laws(11, 100, unaltered), try_all_laws(11, 100, by_the_library));
    let others: [(Compose, &str); 5] = [
        (joined_in_the_other_order, "the composed mapping: refused, 7 misfit"),
        (without_the_attributes_of_g, "the composed mapping: refused, 7 misfit"),
        (without_the_nodes_of_g, "the composed mapping: refused, 7 misfit"),
        (by_first_paths, "an identity: "),
        (of_the_first_image_alone, "the composed mapping: refused, 7 misfit"),
    ];
    for (other, law) in others {
        let broken = try_all_laws(11, 100, other).expect_err("a law that is broken");
        assert!(broken.contains(law), "{broken}");
    }
}

/// Whether F or G is an identity.
fn has_identity([s, t, u]: [&Schema; 3], f: &Mapping, g: &Mapping) -> bool {
    (s == t && *f == identity(s)) || (t == u && *g == identity(t))
}

fn by_first_paths_but_for_identities(sheets: [&[u8]; 5]) -> Sheet {
    altered(sheets, |[s, t, u], f, g, right| {
        if !has_identity([s, t, u], f, g) {
            take_first_paths(s, u, right);
        }
    })
}

/// In the two groupings of three mappings the last step has another T.
fn by_first_paths_to_more_nodes(sheets: [&[u8]; 5]) -> Sheet {
    altered(sheets, |[s, t, u], f, g, right| {
        if t.nodes < u.nodes && !has_identity([s, t, u], f, g) {
            take_first_paths(s, u, right);
        }
    })
}

/// Each column to the last of those that have its image's table and kind.
fn to_the_last_columns(sheets: [&[u8]; 5]) -> Sheet {
    altered(sheets, |[s, t, u], f, g, right| {
        let last = |b: usize| u.attributes.iter().rposition(|a| *a == u.attributes[b]);
        if !has_identity([s, t, u], f, g) {
            right.attributes.iter_mut().for_each(|b| *b = last(*b).expect("the image itself"));
        }
    })
}

/// The laws that 2,000 cases by chance tell, each case the first that it breaks.
fn told(compose: Compose) -> BTreeSet<String> {
    let mut random = Random::seeded(11);
    let broken = (0..2000).filter_map(|_| try_laws(&LawCase::any(&mut random), compose).err());
    broken.map(|law| law.split(':').next().expect("a law").to_string()).collect()
}

/// Calls whose other compositions are accepted mappings, and are right with identities, break
/// just the laws that are named here; where they break none, the reference differs.
#[test]
fn each_other_law_is_told_where_it_is_broken() {
    let others: [(Compose, &[&str]); 3] = [
        (by_first_paths_but_for_identities, &[]),
        (by_first_paths_to_more_nodes, &["composed either way"]),
        (
            to_the_last_columns,
            &["Delta along the composite, and in turn", "an uneven composition of even mappings"],
        ),
    ];
    for (other, laws) in others {
        let expected = [laws, &["compose, and the reference"]].concat();
        assert_eq!(told(other), expected.into_iter().map(String::from).collect());
    }
}
