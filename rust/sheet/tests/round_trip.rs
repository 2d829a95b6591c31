//! Text to sheet to text is the identity.

mod common;

use common::generate::{self, Random};
use sheet::{aligned_tables, Instance, Mapping, Matching, Path, Row, Schema, TableText};

const CASES: u64 = 400;

fn parsed(text: &str) -> Schema {
    Schema::parse("some.schema", text).expect("a schema's text").0
}

#[test]
fn schemas_with_the_names_of_sheets_go_through_the_sheet() {
    for seed in 0..CASES {
        let schema = generate::schema(&mut Random::seeded(seed));
        let sheet = schema.to_sheet().unwrap();
        let decoded = Schema::from_sheet(&sheet).unwrap();
        let text = decoded.to_text();
        let read = parsed(&text);
        assert_eq!(read, decoded);
        assert_eq!(read.to_sheet().unwrap(), sheet);
        assert_eq!(Schema::from_sheet(&read.to_sheet().unwrap()).unwrap().to_text(), text);
    }
}

#[test]
fn schemas_with_names_of_their_own_keep_them_in_text() {
    for seed in 0..CASES {
        let schema = generate::schema(&mut Random::seeded(seed));
        let text = schema.to_text();
        assert_eq!(parsed(&text), schema);
        assert_eq!(parsed(&text).to_text(), text);
        assert_eq!(parsed(&text).to_sheet(), schema.to_sheet());
        let marked = format!("\u{feff}# a comment\r\n{}", text.replace('\n', "  # why\r\n"));
        assert_eq!(parsed(&marked), schema);
    }
}

#[test]
fn mappings_go_through_the_sheet() {
    for seed in 0..CASES {
        let random = &mut Random::seeded(seed);
        let (mut s, t) = (generate::schema(random), generate::schema(random));
        let mapping = generate::mapping(random, &mut s, &t);
        let text = mapping.to_text(&s, &t);
        let (read, _) = Mapping::parse("some.mapping", &text, &s, &t).unwrap();
        assert_eq!(read, mapping);
        let decoded = Mapping::from_sheet(&s, &read.to_sheet().unwrap()).unwrap();
        assert_eq!(decoded, mapping);
        assert_eq!(decoded.to_text(&s, &t), text);
        let mut lines: Vec<&str> = text.lines().collect();
        lines.reverse();
        let (shuffled, _) = Mapping::parse("some.mapping", &lines.join("\r\n"), &s, &t).unwrap();
        assert_eq!(shuffled, mapping);
    }
}

fn tables(folder: Vec<(String, String)>) -> Vec<TableText> {
    folder.into_iter().map(|(file, text)| TableText { file, text }).collect()
}

#[test]
fn instances_go_through_the_sheet() {
    for seed in 0..CASES {
        let random = &mut Random::seeded(seed);
        let schema = generate::schema(random);
        let instance = generate::any_instance(random, &schema, 6);
        let folder = instance.to_folder(&schema);
        let read = Instance::parse(&tables(folder.clone()), &schema).unwrap();
        assert_eq!(read, instance);
        let decoded = Instance::from_sheet(&schema, &read.to_sheet().unwrap()).unwrap();
        assert_eq!(decoded, instance);
        assert_eq!(decoded.to_folder(&schema), folder);
        let spreadsheet = folder.into_iter().map(|(file, text)| {
            let cells = text.lines().map(|line| {
                let cells: Vec<String> =
                    line.split(',').map(|cell| format!("\"{cell}\"")).collect();
                cells.join(";") + ";;\r\n"
            });
            (file, format!("\u{feff}{}", cells.collect::<String>()))
        });
        assert_eq!(Instance::parse(&tables(spreadsheet.collect()), &schema).unwrap(), instance);
        let shown = aligned_tables(&instance, &schema);
        assert_eq!(
            shown.lines().filter(|line| line.contains(" row")).count(),
            2 * schema.nodes.len()
        );
    }
}

#[test]
fn matchings_go_through_the_sheet() {
    for seed in 0..CASES {
        let random = &mut Random::seeded(seed);
        let schema = generate::schema(random);
        let rows: Vec<usize> = schema.nodes.iter().map(|_| random.below(6)).collect();
        let matching = generate::any_matching(random, &rows);
        let text = matching.to_csv(&schema);
        let (read, _) = Matching::parse("list.csv", &text, &schema).unwrap();
        assert_eq!(read, matching);
        let decoded = Matching::from_sheet(&schema, &rows, &read.to_sheet().unwrap()).unwrap();
        assert_eq!(decoded, matching);
        assert_eq!(decoded.to_csv(&schema), text);
    }
}

#[test]
fn paths_go_through_the_sheet() {
    for seed in 0..CASES / 10 {
        let schema = generate::schema(&mut Random::seeded(seed));
        for path in sheet::all_paths(&schema).unwrap() {
            let text = path.text(&schema);
            assert_eq!(Path::parse(&schema, &text).as_ref(), Ok(&path));
            assert_eq!(Path::from_sheet(&path.to_sheet().unwrap()), Ok(path));
        }
    }
}

#[test]
fn numbers_that_no_field_holds_are_told() {
    let told = |what: &str, result: Result<Vec<u8>, sheet::Unwritable>| {
        assert_eq!(result.unwrap_err().to_string(), what);
    };
    let path = Path { start: 16, links: vec![] };
    told("the start of the path is 16, but its field holds at most 15", path.to_sheet());
    let list = Matching { partners: vec![vec![0, 512]] };
    told("the partner of table 0 row 1 is 512, but its field holds at most 511", list.to_sheet());
    let run = Instance { rows: vec![1024], ..Instance::default() };
    told("the row count of table 0 is 1024, but its field holds at most 1023", run.to_sheet());
    let nodes = (0..32).map(|number| format!("n{number}")).collect();
    let schema = Schema { nodes, ..Schema::default() };
    told("the number of nodes is 32, but its field holds at most 31", schema.to_sheet());
}

#[test]
fn rows_go_through_the_sheet() {
    for seed in 0..CASES {
        let random = &mut Random::seeded(seed);
        let schema = generate::schema(random);
        let table = random.below(schema.nodes.len());
        let row = Row {
            links: schema.links_from(table).iter().map(|_| random.below(512)).collect(),
            values: schema.columns_at(table).iter().map(|_| random.bits() as u32).collect(),
        };
        let written = random.shuffled(generate::row_words(&schema, table, &row));
        let read = Row::parse(&schema, table, &written).unwrap();
        assert_eq!(read, row);
        let sheet = read.to_sheet().unwrap();
        assert_eq!(sheet.len(), (9 * row.links.len() + 32 * row.values.len()).div_ceil(8));
        assert_eq!(Row::from_sheet(&schema, table, &sheet).unwrap(), row);
        if let Some(left_out) = written.first() {
            let name = left_out.split('=').next().unwrap();
            let told = Row::parse(&schema, table, &written[1..]).unwrap_err().concat();
            assert!(told.starts_with(&format!("no {name}; expected ")), "{told}");
        }
    }
}
