//! How the named compositions end, and what must occur among the stored ones.

use reference::classes::Classes;
use reference::plain::*;
use reference::Refusal;
use std::collections::BTreeMap;
use vectors::answer::{reference_outcome, Outcome};
use vectors::call::{Call, Case};
use vectors::composable::Composable;
use vectors::compositions::{base_composable, compositions, longest_composable};
use vectors::even::is_even;
use vectors::full::full_composable;
use vectors::mappings::Mapped;
use vectors::record::stored_cases;

/// An accepted composition, and the composed mapping.
struct Opened {
    s: Schema,
    t: Schema,
    u: Schema,
    f: Mapping,
    g: Mapping,
    composed: Mapping,
}

impl Opened {
    fn of(case: &Case, outcome: &Outcome) -> Option<Self> {
        let length = outcome.answer.ok()?;
        let [s, t, u, f, g] = case.sheets.as_slice() else { return None };
        let [s, t, u] = [s, t, u].map(|sheet| Schema::accept(sheet).expect("accepted"));
        let f = Mapping::accept(&s, &t, f).expect("accepted");
        let g = Mapping::accept(&t, &u, g).expect("accepted");
        let composed = Mapping::accept(&s, &u, &outcome.tray[..length]).expect("a mapping");
        Some(Opened { s, t, u, f, g, composed })
    }

    /// Whether F, G and the composed mapping are even.
    fn even(&self) -> [bool; 3] {
        let even = |s: &Schema, t: &Schema, f: &Mapping| {
            is_even(&Mapped { s: s.clone(), t: t.clone(), f: f.clone() })
        };
        let Opened { s, t, u, f, g, composed } = self;
        [even(s, t, f), even(t, u, g), even(s, u, composed)]
    }

    /// Whether the images of an edge's image, of at least two, fulfil something.
    fn some_images(&self, fulfil: impl Fn(&[&[usize]]) -> bool) -> bool {
        self.f.edges.iter().filter(|image| image.len() > 1).any(|image| {
            let images: Vec<&[usize]> = image.iter().map(|&edge| &self.g.edges[edge][..]).collect();
            fulfil(&images)
        })
    }
}

/// Whether two of a list are the same.
fn repeats(images: &[usize]) -> bool {
    (1..images.len()).any(|place| images[..place].contains(&images[place]))
}

/// What is looked for among the accepted compositions.
type Feature = fn(&Opened) -> bool;

const FEATURES: [(&str, Feature); 17] = [
    ("F and G even", |o| matches!(o.even(), [true, true, true])),
    ("F even alone", |o| matches!(o.even(), [true, false, _])),
    ("G even alone", |o| matches!(o.even(), [false, true, _])),
    ("the composed mapping uneven", |o| !o.even()[2]),
    ("an image of no edges by F", |o| o.f.edges.iter().any(Vec::is_empty)),
    ("an image of one edge and more by F, of none by F and G", |o| {
        o.f.edges
            .iter()
            .zip(&o.composed.edges)
            .any(|(by_f, all)| !by_f.is_empty() && all.is_empty())
    }),
    ("images of several edges joined, each of one at least", |o| {
        o.some_images(|images| images.iter().all(|image| !image.is_empty()))
    }),
    ("images joined of which one has no edge, and another has", |o| {
        o.some_images(|images| {
            images.iter().any(|image| image.is_empty()) && images.iter().any(|i| !i.is_empty())
        })
    }),
    ("images joined that are others in the other order", |o| {
        o.some_images(|images| {
            let back: Vec<&[usize]> = images.iter().rev().copied().collect();
            images.concat() != back.concat()
        })
    }),
    ("an image that is not first in its class", |o| {
        let classes = Classes::of(&o.u);
        let edges = 0..o.s.edges.len();
        let mut images = edges.map(|edge| o.composed.edge_image(&o.s, edge));
        images.any(|image| *classes.first(&image) != image)
    }),
    ("equations of all three schemas", |o| {
        [&o.s, &o.t, &o.u].iter().all(|schema| !schema.equations.is_empty())
    }),
    ("several nodes to one, by F and by G", |o| repeats(&o.f.nodes) && repeats(&o.g.nodes)),
    ("several columns to one by F", |o| repeats(&o.f.attributes)),
    ("several columns to one by G that F has", |o| {
        repeats(&o.composed.attributes) && !repeats(&o.f.attributes)
    }),
    ("columns that G sends elsewhere", |o| o.composed.attributes != o.f.attributes),
    ("a column of T, and one of U, that is the image of none", |o| {
        let missed = |count: usize, images: &[usize]| (0..count).any(|b| !images.contains(&b));
        missed(o.t.attributes.len(), &o.f.attributes)
            && missed(o.u.attributes.len(), &o.composed.attributes)
    }),
    ("a mapping that is neither F nor G", |o| o.composed != o.f && o.composed != o.g),
];

#[test]
fn what_matters_to_the_composing_call_occurs_among_the_accepted_cases() {
    let cases = stored_cases().into_iter().filter(|case| case.call == Call::Compose);
    let open = |case: Case| Opened::of(&case, &reference_outcome(&case));
    let opened: Vec<Opened> = cases.filter_map(open).collect();
    for (name, feature) in FEATURES {
        let count = opened.iter().filter(|opened| feature(opened)).count();
        println!("{name}: {count} of {}", opened.len());
        assert!(count >= 3, "{name} occurs {count} times");
    }
    // "of even mappings it is even"
    assert!(opened.iter().all(|opened| !matches!(opened.even(), [true, true, false])));
}

fn refused(number: u8, place: u8) -> Result<usize, Refusal> {
    Err(Refusal { number, place })
}

/// The outcomes of the named compositions.
fn outcomes() -> BTreeMap<String, Outcome> {
    let outcome = |case: Case| (case.name.clone(), reference_outcome(&case));
    let outcomes: Vec<(String, Outcome)> = compositions().into_iter().map(outcome).collect();
    let named: BTreeMap<String, Outcome> = outcomes.iter().cloned().collect();
    assert_eq!(named.len(), outcomes.len(), "two cases with one name");
    named
}

#[test]
fn the_named_compositions_end_as_they_should() {
    let outcomes = outcomes();
    let check = |name: &str, expected: Result<usize, Refusal>| {
        assert_eq!(outcomes[name].answer, expected, "{name}");
    };
    check("the base example", Ok(6));
    check("one node", Ok(1));
    check("32 edges to 1 each", Ok(52));
    check("32 edges to 2 each", Ok(72));
    check("32 edges to 8 each", Ok(192));
    check("32 edges to 15 each", Ok(332));
    check("the longest sheet as G", Ok(332));
    check("the longest sheet, a tray of 331", refused(16, 0));
    check("the longest sheet, a tray of 332", Ok(332));
    check("the longest sheet, a tray of 333", Ok(332));
    check("256 paths to 128", Ok(52));
    check("256 paths, 256, 128", Ok(52));
    check("an equation of all three", Ok(4));
    check("an equation that T lacks", refused(8, 4));
    check("an equation that U lacks", refused(8, 5));
    check("an equation that S lacks", Ok(4));
    check("an equation that G alone would make", refused(8, 4));
    for one in 1..=5 {
        for other in one..=5 {
            check(&format!("sheets {one} and {other} empty"), refused(1, one));
        }
    }
    for tray in 0..=8 {
        let expected = if tray < 6 { refused(16, 0) } else { Ok(6) };
        check(&format!("a tray of {tray}"), expected);
    }
}

/// The composed mapping of a named case.
fn composed(name: &str) -> Mapping {
    let case = compositions().into_iter().find(|case| case.name == name).expect("a named case");
    Opened::of(&case, &reference_outcome(&case)).expect("accepted sheets").composed
}

#[test]
fn the_edges_of_the_named_compositions_have_the_images_that_they_should() {
    let all: Vec<usize> = (0..15).collect();
    for name in [
        "15 edges of F",
        "15 edges of G",
        "three images of 5 edges",
        "the first edge to 15",
        "the last edge to 15",
    ] {
        assert_eq!(composed(name).edges, std::slice::from_ref(&all), "{name}");
    }
    assert_eq!(composed("32 edges to 15 each").edges, vec![all; 32]);
    for (name, images) in [
        ("no edges of F", vec![vec![]]),
        ("no edges of G", vec![vec![]]),
        ("no edges of F or G", vec![vec![], vec![]]),
        ("two edges, one of them to none", vec![vec![0]]),
        ("the later of two edges", vec![vec![1]]),
        ("the later, then itself", vec![vec![1]]),
        ("the later, then the first", vec![vec![0]]),
        ("the longer of two paths", vec![vec![1, 2]]),
        ("the longer, then itself", vec![vec![1, 2]]),
    ] {
        assert_eq!(composed(name).edges, images, "{name}");
    }
}

#[test]
fn the_columns_of_the_named_compositions_have_the_images_that_they_should() {
    for (name, images) in [
        ("columns in another order", vec![0, 2, 1]),
        ("three columns to one", vec![2; 3]),
        ("three to one by G", vec![0; 3]),
        ("columns between others", vec![0, 2, 3]),
        ("16 columns turned", (0..16).map(|n| (n + 14) % 16).collect()),
        ("an image of several", vec![0]),
    ] {
        assert_eq!(composed(name).attributes, images, "{name}");
    }
}

/// Dents and losses to anomalies, their links to two links each, both stations to one, the
/// second column.
#[test]
fn the_base_example_goes_by_way_of_welds() {
    let case = base_composable().case("the base example");
    let opened = Opened::of(&case, &reference_outcome(&case)).expect("accepted sheets");
    assert_eq!(opened.composed.nodes, [0, 2, 0]);
    assert_eq!(opened.composed.edges, [[0, 1], [0, 1]]);
    assert_eq!(opened.composed.attributes, [1, 1]);
}

/// Each mapping of the base example, composed with an identity on either side, has its own
/// bytes.
#[test]
fn identities_leave_the_base_example_s_mappings_as_they_are() {
    let outcomes = outcomes();
    let sheets = base_composable().mappings.into_iter().map(|mapping| mapping.to_sheet());
    for (name, sheet) in ["F", "G"].into_iter().zip(sheets) {
        for side in ["after", "before"] {
            let Outcome { answer, tray, .. } = &outcomes[&format!("{name} {side} an identity")];
            assert_eq!(tray[..answer.expect("accepted sheets")], sheet);
        }
    }
}

/// At full size each schema has every count at its limit, and so has S where the result is
/// the longest.
#[test]
fn at_full_size_every_count_is_at_its_limit() {
    let counts = |s: &Schema| [s.nodes, s.edges.len(), s.attributes.len(), s.equations.len()];
    assert!(full_composable().schemas.iter().all(|schema| counts(schema) == [16, 32, 16, 32]));
    let Composable { schemas, .. } = longest_composable();
    assert_eq!(counts(&schemas[0])[..3], [16, 32, 16]);
}
