//! Mappings at random, composed: the sheet is that of the images' images, its text is
//! read back to it, composing in either order is the same, books are pulled back as
//! along G and then F, and the cause of every refusal is found.

mod common;

use common::cause_is_found;
use common::generate::{self, Random};
use sheet::{Answer, Call, Column, Lent, LentSchema, Mapping, Question, Role, Schema};

/// A schema with a mapping to T whose images fit, whether or not equations are kept.
fn fitted(random: &mut Random, t: &Schema) -> (Schema, Mapping) {
    let mut s = generate::schema(random);
    let mut f = generate::mapping(random, &mut s, t);
    s.columns.clear();
    f.columns.clear();
    for (node, &image) in f.nodes.iter().enumerate() {
        for column in t.columns_at(image) {
            if s.columns.len() < Schema::MOST_COLUMNS && random.below(3) > 0 {
                let name = format!("column-{}", s.columns.len());
                s.columns.push(Column { name, node, kind: t.columns[column].kind });
                f.columns.push(column);
            }
        }
    }
    (s, f)
}

/// A schema with a mapping to T: some one, or T itself.
fn mapped(random: &mut Random, t: &Schema) -> (Schema, Mapping) {
    match random.below(2) {
        0 => fitted(random, t),
        _ => generate::copies(t, 1),
    }
}

/// The texts of schemas and mappings, lent to `compose`.
fn question([s, t, u]: [&Schema; 3], f: &Mapping, g: &Mapping) -> Question {
    let lent = |file: &str, schema: &Schema| {
        LentSchema::from_text(file, &schema.to_text()).expect("a schema's text")
    };
    let mut question = Question::new(Call::Compose);
    question.s = Some(lent("s.schema", s));
    question.t = Some(lent("t.schema", t));
    question.u = Some(lent("u.schema", u));
    question.mapping = Some(Lent::mapping("f.mapping", &f.to_text(s, t), s, t).unwrap());
    question.g = Some(Lent::mapping("g.mapping", &g.to_text(t, u), t, u).unwrap());
    question
}

/// The composed mapping; none where the call refuses.
fn composed(schemas: [&Schema; 3], f: &Mapping, g: &Mapping) -> Option<Mapping> {
    let Ok(Answer::Sheet(sheet)) = question(schemas, f, g).ask() else { return None };
    Some(Mapping::from_sheet(schemas[0], &sheet).expect("a mapping sheet"))
}

#[test]
fn the_sheet_is_that_of_the_images_images_and_its_text_is_read_back() {
    let (mut found, mut longer, mut shorter, mut ordered) = (0, 0, 0, 0);
    for seed in 0..600 {
        let random = &mut Random::seeded(seed);
        let u = generate::schema(random);
        let (t, g) = mapped(random, &u);
        let (s, f) = mapped(random, &t);
        let Ok(Answer::Sheet(sheet)) = question([&s, &t, &u], &f, &g).ask() else { continue };
        let image = |link: usize| g.path_image(&f.link_image(&s, link).unwrap()).unwrap().links;
        let expected = Mapping {
            nodes: f.nodes.iter().map(|&node| g.nodes[node]).collect(),
            links: (0..s.links.len()).map(image).collect(),
            columns: f.columns.iter().map(|&column| g.columns[column]).collect(),
        };
        assert_eq!(expected.to_sheet().unwrap(), sheet, "seed {seed}");
        let text = Mapping::from_sheet(&s, &sheet).unwrap().to_text(&s, &u);
        let read = Lent::mapping("composed.mapping", &text, &s, &u).unwrap();
        assert_eq!(read.sheet, sheet, "seed {seed}");
        for (joined, image) in expected.links.iter().zip(&f.links) {
            longer += usize::from(joined.len() > image.len());
            shorter += usize::from(joined.len() < image.len());
            // Joined in the other order they would be another path.
            let images = image.iter().filter(|&&link| !g.links[link].is_empty());
            ordered += usize::from(images.count() > 1);
        }
        found += 1;
    }
    assert!(found > 200, "{found}");
    assert!(longer > 0 && shorter > 0 && ordered > 0, "{longer} {shorter} {ordered}");
}

#[test]
fn a_book_is_pulled_back_as_along_g_and_then_f() {
    let (mut pulled, mut with_rows) = (0, 0);
    for seed in 0..400 {
        let random = &mut Random::seeded(seed);
        let u = generate::schema(random);
        let (t, g) = mapped(random, &u);
        let (s, f) = mapped(random, &t);
        let Some(composed) = composed([&s, &t, &u], &f, &g) else { continue };
        let text = composed.to_text(&s, &u);
        let composite = Lent::mapping("composed.mapping", &text, &s, &u).unwrap().sheet;
        let book = generate::instance(random, &u, 6);
        let [s, t, u] = [&s, &t, &u].map(|schema| schema.to_sheet().unwrap());
        let [f, g] = [f, g].map(|mapping| mapping.to_sheet().unwrap());
        let sheet = book.to_sheet().unwrap();
        let exchanged = migration::delta(&t, &u, &g, &sheet).unwrap();
        let in_turn = migration::delta(&s, &t, &f, &exchanged).unwrap();
        let along_composite = migration::delta(&s, &u, &composite, &sheet);
        assert_eq!(along_composite, Ok(in_turn), "seed {seed}");
        pulled += 1;
        with_rows += usize::from(book.total_rows() > 0);
    }
    assert!(pulled > 100 && with_rows > 50, "{pulled} {with_rows}");
}

#[test]
fn three_mappings_are_one_in_either_order() {
    let mut met = 0;
    for seed in 0..400 {
        let random = &mut Random::seeded(seed);
        let v = generate::schema(random);
        let (u, h) = mapped(random, &v);
        let (t, g) = mapped(random, &u);
        let (s, f) = mapped(random, &t);
        let Some(first) = composed([&s, &t, &u], &f, &g) else { continue };
        let Some(last) = composed([&t, &u, &v], &g, &h) else { continue };
        let left = composed([&s, &u, &v], &first, &h).expect("an accepted mapping");
        assert_eq!(composed([&s, &t, &v], &f, &last), Some(left), "seed {seed}");
        met += 1;
    }
    assert!(met > 50, "{met}");
}

/// Schemas that have lost their equations, which those mapped to them keep, and mapping
/// sheets that are cut, followed by a byte or have a bit changed.
#[test]
fn the_cause_is_found_in_f_and_g_at_random() {
    let mut met = [[0; 6]; 20];
    for seed in 0..800 {
        let random = &mut Random::seeded(seed);
        let mut u = generate::schema(random);
        let (mut t, g) = mapped(random, &u);
        let (s, f) = mapped(random, &t);
        match random.below(3) {
            0 => t.equations.clear(),
            1 => u.equations.clear(),
            _ => {}
        }
        let mut question = question([&s, &t, &u], &f, &g);
        if random.below(2) == 0 {
            let role = *random.one_of(&[Role::Mapping, Role::G]);
            let mut sheet = question.lent(role).unwrap().sheet.clone();
            match random.below(3) {
                0 => sheet.truncate(random.below(sheet.len())),
                1 => sheet.push(0),
                _ => sheet[0] ^= 0x80 >> random.below(8),
            }
            let lent = Some(Lent::from_sheet("damaged.sheet", sheet));
            match role {
                Role::Mapping => question.mapping = lent,
                _ => question.g = lent,
            }
        }
        if random.below(8) == 0 {
            question.tray = Some(0);
        }
        let place = question.ask().err().map_or(0, |refusal| usize::from(refusal.place));
        met[cause_is_found(&question, seed)][place] += 1;
    }
    for number in [1, 2, 7, 8] {
        assert!(met[number][4] > 0 && met[number][5] > 0, "refusal {number}: {met:?}");
    }
    assert!(met[0][0] > 0 && met[16][0] > 0, "{met:?}");
}
