//! Request C-17 of document 02, "Two hops or one": examples worked by hand, the
//! order of refusals, and the tray.

mod common;

use common::*;
use reference::plain::*;
use reference::*;
use vectors::compositions::base_composable;

/// The base example and a mapping more.  U: Feature 0, Weld 1, Joint 2, links from each
/// to the next; features have a depth and then a station.  Anomalies go to features,
/// their link to both links, and their station to the station.
fn base_sheets() -> ComposeSheets {
    base_composable().sheets().try_into().expect("five sheets")
}

/// Dents and losses go to features, both links to both links, both stations to the
/// station, by hand.
fn base_composed() -> Vec<u8> {
    hex("02 02 00 48 01 11")
}

#[test]
fn the_base_example_with_a_mapping_more() {
    assert_eq!(composed(&base_sheets()), Ok(base_composed()));
}

#[test]
fn images_are_joined_in_the_order_of_the_image_path() {
    // The path of T is 2, 1, 0; the images of its edges are 3 and 0, none, and 2.
    let s = graph(2, &[(0, 1)]);
    let t = graph(4, &[(2, 3), (1, 2), (0, 1)]);
    let u = graph(4, &[(1, 2), (0, 3), (2, 3), (0, 1)]);
    let f = mapping(&[0, 3], &[&[2, 1, 0]]);
    let g = mapping(&[0, 2, 2, 3], &[&[2], &[], &[3, 0]]);
    let whole = mapping(&[0, 3], &[&[3, 0, 2]]);
    assert_eq!(composed(&sheets_of([&s, &t, &u], [&f, &g])), Ok(whole.to_sheet()));
}

#[test]
fn no_first_path_of_a_class_is_chosen() {
    // All three paths of U from 0 to 2 are equal; the one with the edge 4 is first.
    let s = graph(2, &[(0, 1)]);
    let t = graph(3, &[(0, 1), (1, 2)]);
    let mut u = graph(4, &[(0, 1), (1, 2), (0, 3), (3, 2), (0, 2)]);
    u.equations = vec![equation(0, &[0, 1], &[2, 3]), equation(0, &[0, 1], &[4])];
    let f = mapping(&[0, 2], &[&[0, 1]]);
    for (middle, edges) in [(1, [0, 1]), (3, [2, 3])] {
        let g = mapping(&[0, middle, 2], &[&edges[..1], &edges[1..]]);
        let whole = mapping(&[0, 2], &[&edges]);
        assert_eq!(composed(&sheets_of([&s, &t, &u], [&f, &g])), Ok(whole.to_sheet()));
    }
}

#[test]
fn a_schema_without_edges_and_columns_has_its_nodes_alone() {
    let (s, t) = (graph(3, &[]), graph(2, &[]));
    let (f, g) = (mapping(&[1, 0, 1], &[]), mapping(&[1, 0], &[]));
    assert_eq!(composed(&sheets_of([&s, &t, &t], [&f, &g])), Ok(hex("01 00")));
}

/// A composed sheet of the most bytes: 16 nodes, 32 edges with images of 15 edges,
/// and 16 attributes.
fn largest() -> ComposeSheets {
    let halves: Vec<(usize, usize)> = (0..32).map(|e| (e / 4, 8 + e % 8)).collect();
    let column = |node| Attribute { node, kind: 13 };
    let mut s = graph(16, &halves);
    s.attributes = (0..16).map(|_| column(3)).collect();
    let mut t = graph(2, &[(1, 0)]);
    t.attributes = vec![column(1)];
    let chain: Vec<(usize, usize)> = (1..16).map(|n| (n - 1, n)).collect();
    let mut u = graph(16, &chain);
    u.attributes = (0..16).map(|_| column(0)).collect();
    let image = |c: usize| usize::from(c < 8);
    let f = Mapping {
        nodes: (0..16).map(image).collect(),
        edges: vec![vec![0]; 32],
        attributes: vec![0; 16],
    };
    let whole: Vec<usize> = (0..15).collect();
    let mut g = mapping(&[15, 0], &[&whole]);
    g.attributes = vec![15];
    sheets_of([&s, &t, &u], [&f, &g])
}

#[test]
fn the_largest_sheet_has_332_bytes() {
    let mut tray = [FILLING; 333];
    assert_eq!(into_tray(composed(&largest()), &mut tray[..331]), refused(16, 0));
    assert_eq!(tray, [FILLING; 333]);
    assert_eq!(into_tray(composed(&largest()), &mut tray), Ok(332));
    assert_eq!(tray[332], FILLING);
    // The first eight nodes go to node 0, the others to node 15.
    let whole: String = (0..15).map(|edge| format!("{edge:05b}")).collect();
    let bits = "0".repeat(32) + &"1111".repeat(8) + &format!("1111{whole}").repeat(32);
    assert_eq!(tray[..332].to_vec(), bytes(bits + &"1111".repeat(16)));
}

#[test]
fn a_tray_too_small_is_refused_last() {
    let mut tray = [FILLING; 8];
    assert_eq!(into_tray(composed(&base_sheets()), &mut tray[..5]), refused(16, 0));
    let mut damaged = base_sheets();
    damaged[4].push(0);
    assert_eq!(into_tray(composed(&damaged), &mut tray[..5]), refused(2, 5));
    assert_eq!(tray, [FILLING; 8]);
    assert_eq!(into_tray(composed(&base_sheets()), &mut tray), Ok(6));
    assert_eq!(tray.to_vec(), [base_composed(), vec![FILLING; 2]].concat());
}

#[test]
fn of_two_damaged_sheets_the_one_with_the_lower_place_is_refused() {
    // The one has a byte too many, the other one too few.
    for first in 0..5 {
        for second in first + 1..5 {
            let mut damaged = base_sheets();
            damaged[first].push(0);
            damaged[second].pop();
            assert_eq!(composed(&damaged), refused(2, first as u8 + 1));
        }
    }
}

#[test]
fn each_schema_has_the_numbers_of_a_schema_at_its_place() {
    let crowded = graph(9, &[doubled_edges(8), vec![(8, 0)]].concat());
    let faults = [
        (1, vec![]),
        (2, [base_t(), vec![0]].concat()),
        (3, graph(0, &[]).to_sheet()),
        (4, graph(1, &[(0, 1)]).to_sheet()),
        (5, graph(2, &[(0, 1), (1, 0)]).to_sheet()),
        (6, crowded.to_sheet()),
    ];
    for place in 1..4 {
        for (number, schema) in &faults {
            let mut damaged = base_sheets();
            damaged[place - 1] = schema.clone();
            assert_eq!(composed(&damaged), refused(*number, place as u8));
            // Schemas are judged before mappings.
            damaged[3] = vec![];
            assert_eq!(composed(&damaged), refused(*number, place as u8));
        }
    }
}

/// The edges of a chain of doubled edges.
fn doubled_edges(nodes: usize) -> Vec<(usize, usize)> {
    doubled_chain(nodes).edges.iter().map(|edge| (edge.source, edge.target)).collect()
}

#[test]
fn each_mapping_is_judged_between_its_own_two_schemas() {
    // Each schema has or lacks the rule that its two edges are equal.
    let free = graph(2, &[(0, 1), (0, 1)]);
    let ruled = Schema { equations: vec![equation(0, &[0], &[1])], ..free.clone() };
    let same = identity(&free);
    for number in 0..8 {
        let has_rule = [0, 1, 2].map(|bit| number >> bit & 1 == 1);
        let schemas = has_rule.map(|has| if has { &ruled } else { &free });
        let expected = match has_rule {
            [true, false, _] => refused(8, 4),
            [_, true, false] => refused(8, 5),
            _ => Ok(same.to_sheet()),
        };
        assert_eq!(composed(&sheets_of(schemas, [&same; 2])), expected, "{has_rule:?}");
    }
}

#[test]
fn a_misfit_of_f_comes_before_one_of_g() {
    // The first node goes to none.
    let mut damaged = base_sheets();
    damaged[4][0] |= 0xF0;
    assert_eq!(composed(&damaged), refused(7, 5));
    damaged[3][0] |= 0xF0;
    assert_eq!(composed(&damaged), refused(7, 4));
}

#[test]
fn delta_along_g_may_be_overfull_where_it_is_not_along_the_composite() {
    // Three copies of a table, of which S has one.
    let (one, three) = (graph(1, &[]), graph(3, &[]));
    let (f, g) = (mapping(&[2], &[]), mapping(&[0, 0, 0], &[]));
    let all = sheets_of([&one, &three, &one], [&f, &g]);
    let composite = composed(&all).unwrap();
    let [s, t, u, _, g] = all;
    let book = instance(&[171], &[]).to_sheet();
    assert_eq!(delta(&t, &u, &g, &book), refused(15, 0));
    assert_eq!(delta(&s, &u, &composite, &book), Ok(book));
}
