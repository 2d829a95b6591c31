//! Request C-17 of document 02, "Two hops or one": mappings by chance, with fixed
//! seeds, against the request's sentences written down once more.

mod common;

use common::*;
use reference::plain::*;
use reference::*;
use vectors::even::{even_mapping, even_mapping_to};
use vectors::instances::instance as any_instance;
use vectors::mappings::Mapped;
use vectors::random::Random;

/// The sheets of F from S to T and G from T to U.
fn sheets(f: &Mapped, g: &Mapped) -> ComposeSheets {
    sheets_of([&f.s, &f.t, &g.t], [&f.f, &g.f])
}

/// The images of an edge's image path, "joined".
fn joined(image: &[usize], g: &Mapping) -> Vec<usize> {
    let mut edges = Vec::new();
    for &edge in image {
        for &next in &g.edges[edge] {
            edges.push(next);
        }
    }
    edges
}

/// The sheet of the composed mapping, put together from a text of bits: "each
/// node's image 4; each edge's image as length 4 and edges 5 each ...; each
/// attribute's image 4."
fn written_out(f: &Mapping, g: &Mapping) -> Vec<u8> {
    let mut bits = String::new();
    for &node in &f.nodes {
        bits += &format!("{:04b}", g.nodes[node]);
    }
    for image in &f.edges {
        let edges = joined(image, g);
        bits += &format!("{:04b}", edges.len());
        for edge in edges {
            bits += &format!("{edge:05b}");
        }
    }
    for &attribute in &f.attributes {
        bits += &format!("{:04b}", g.attributes[attribute]);
    }
    bytes(bits)
}

#[test]
fn each_image_is_its_image_s_image_and_the_sheet_is_accepted() {
    let mut random = Random::seeded(51);
    let (mut turned, mut moved, mut not_first) = (0, 0, 0);
    for _ in 0..1500 {
        let [f, g] = any_composable(&mut random);
        let sheet = composed(&sheets(&f, &g)).expect("accepted sheets");
        assert_eq!(sheet, written_out(&f.f, &g.f));
        assert_eq!(check_mapping(&f.s.to_sheet(), &g.t.to_sheet(), &sheet), Ok(()));
        for (edge, image) in f.s.edges.iter().zip(&f.f.edges) {
            let edges = joined(image, &g.f);
            let back: Vec<usize> = image.iter().rev().copied().collect();
            turned += usize::from(joined(&back, &g.f) != edges);
            let image = Path { start: g.f.nodes[f.f.nodes[edge.source]], edges };
            not_first += usize::from(first(&g.t, &image) != image);
        }
        moved += f.f.attributes.iter().filter(|&&b| g.f.attributes[b] != b).count();
    }
    assert!(turned > 100, "{turned} images are others in the other order");
    assert!(moved > 100, "{moved} attributes are moved by G");
    assert!(not_first > 100, "{not_first} images are not the first of their classes");
}

#[test]
fn delta_along_it_is_delta_along_g_and_then_along_f() {
    let mut random = Random::seeded(52);
    let (mut same, mut linked, mut composite_alone) = (0, 0, 0);
    for round in 0..1500 {
        let [f, g] = any_composable(&mut random);
        let [s, t, u, f_sheet, g_sheet] = sheets(&f, &g);
        let most_rows = if round % 3 == 0 { 300 } else { 5 };
        let book = any_instance(&mut random, &g.t, most_rows).to_sheet();
        let composite = compose(&s, &t, &u, &f_sheet, &g_sheet).unwrap();
        let along_composite = delta(&s, &u, &composite, &book);
        let along_g = delta(&t, &u, &g_sheet, &book);
        if along_g.is_err() {
            assert_eq!(along_g, refused(15, 0));
            assert!(along_composite.is_ok() || along_composite == along_g);
            composite_alone += usize::from(along_composite.is_ok());
            continue;
        }
        let along_f = delta(&s, &t, &f_sheet, &along_g.unwrap());
        assert_eq!(along_composite, along_f);
        if let Ok(pulled) = along_f {
            same += 1;
            linked += decoded(&f.s, &pulled).links.iter().filter(|link| !link.is_empty()).count();
        }
    }
    assert!(same > 500 && linked > 500, "{same} compared, {linked} links");
    assert!(composite_alone > 10, "{composite_alone} where Delta along G alone is overfull");
}

#[test]
fn of_three_mappings_either_two_may_be_composed_first() {
    let mut random = Random::seeded(53);
    let mut edges = 0;
    for _ in 0..1500 {
        let [f, g, h] = any_composable(&mut random);
        let [s, t, u, v] = [&f.s, &g.s, &h.s, &h.t].map(Schema::to_sheet);
        let [f_sheet, g_sheet, h_sheet] = [&f.f, &g.f, &h.f].map(Mapping::to_sheet);
        let f_g = compose(&s, &t, &u, &f_sheet, &g_sheet).unwrap();
        let g_h = compose(&t, &u, &v, &g_sheet, &h_sheet).unwrap();
        let all = compose(&s, &u, &v, &f_g, &h_sheet).unwrap();
        assert_eq!(compose(&s, &t, &v, &f_sheet, &g_h).as_ref(), Ok(&all));
        let all = Mapping::accept(&f.s, &h.t, &all).unwrap();
        edges += all.edges.iter().filter(|image| image.len() > 1).count();
    }
    assert!(edges > 500, "{edges} edges with longer images");
}

#[test]
fn an_identity_is_a_unit() {
    let mut random = Random::seeded(54);
    for round in 0..1000 {
        let Mapped { s, t, f } = match round % 2 {
            0 => any_composable::<1>(&mut random)[0].clone(),
            _ => even_mapping(&mut random),
        };
        let whole = Ok(f.to_sheet());
        assert_eq!(composed(&sheets_of([&s, &s, &t], [&identity(&s), &f])), whole);
        assert_eq!(composed(&sheets_of([&s, &t, &t], [&f, &identity(&t)])), whole);
    }
}

/// For each row of Sigma along the composed mapping its place in Sigma along F and
/// then G: the first has the rows at a node of U by their nodes c of S, the second
/// by F(c) and then by c.
fn places(run: &Instance, f: &Mapping, g: &Mapping, nodes: usize) -> Matching {
    let partners = |d: usize| {
        let over_d = (0..f.nodes.len()).filter(|&c| g.nodes[f.nodes[c]] == d);
        let over_d: Vec<usize> = over_d.collect();
        let place = |c: usize| {
            let earlier = over_d.iter().filter(|&&b| (f.nodes[b], b) < (f.nodes[c], c));
            earlier.map(|&b| run.rows[b]).sum::<usize>()
        };
        let of_node = |&c: &usize| place(c)..place(c) + run.rows[c];
        over_d.iter().flat_map(of_node).collect()
    };
    Matching { partners: (0..nodes).map(partners).collect() }
}

#[test]
fn of_even_mappings_it_is_even_and_sigma_has_the_rows_of_both_in_turn() {
    let mut random = Random::seeded(55);
    let (mut even, mut rows, mut moved) = (0, 0, 0);
    while even < 600 {
        let g = even_mapping(&mut random);
        let Some(f) = even_mapping_to(&mut random, &g.s) else { continue };
        even += 1;
        let run = any_instance(&mut random, &f.s, 6);
        let [s, t, u, f_sheet, g_sheet] = sheets(&f, &g);
        let composite = compose(&s, &t, &u, &f_sheet, &g_sheet).unwrap();
        let one = sigma(&s, &u, &composite, &run.to_sheet()).expect("an even mapping");
        let along_f = sigma(&s, &t, &f_sheet, &run.to_sheet()).expect("an even mapping");
        let two = sigma(&t, &u, &g_sheet, &along_f).expect("an even mapping");
        let (one, two) = (decoded(&g.t, &one), decoded(&g.t, &two));
        let list = places(&run, &f.f, &g.f, g.t.nodes);
        assert_eq!(one.rows, two.rows);
        assert!(list.is_matching(&g.t, &one, &two));
        for (mut partners, count) in list.partners.into_iter().zip(two.rows) {
            moved += usize::from(!partners.is_sorted());
            partners.sort();
            assert!(partners.into_iter().eq(0..count), "each row once");
            rows += count;
        }
    }
    assert!(rows > 1000 && moved > 50, "{rows} rows, {moved} tables in another order");
}

/// The judgement of the five sheets, from the calls for one sheet.
fn judged(sheets: &ComposeSheets) -> Result<(), Refusal> {
    let [s, t, u, f, g] = sheets;
    let at = |place| move |refusal: Refusal| Refusal { place, ..refusal };
    for (place, schema) in (1..).zip([s, t, u]) {
        check_schema(schema).map_err(at(place))?;
    }
    check_mapping(s, t, f).map_err(at(4))?;
    check_mapping(t, u, g).map_err(at(5))
}

#[test]
fn damaged_sheets_are_judged_as_the_single_calls_judge_them() {
    let mut random = Random::seeded(56);
    let (mut at_place, mut accepted) = ([0; 6], 0);
    for _ in 0..3000 {
        let [f, g] = any_composable(&mut random);
        let mut sheets = sheets(&f, &g);
        for _ in 0..random.below(3) {
            let place = random.below(5);
            damage(&mut random, &mut sheets[place]);
        }
        let result = composed(&sheets);
        assert_eq!(result.clone().map(|_| ()), judged(&sheets));
        // A refused call changes no byte, and 16 comes after all others.
        let mut tray = vec![FILLING; random.below(40)];
        let before = tray.clone();
        match (into_tray(result.clone(), &mut tray), result) {
            (Ok(length), Ok(sheet)) => {
                assert_eq!(tray, [&sheet, &before[length..]].concat());
                accepted += 1;
            }
            (Err(refusal), result) => {
                let too_small = |sheet: Vec<u8>| sheet.len() > before.len();
                assert!(result.map_or_else(|own| own == refusal, too_small));
                assert_eq!(tray, before);
                at_place[usize::from(refusal.place)] += 1;
            }
            (Ok(_), Err(_)) => panic!("a refused call has no length"),
        }
    }
    assert!(accepted > 50, "{accepted} accepted");
    assert!(at_place.iter().all(|&count| count > 50), "{at_place:?} refused at each place");
}
