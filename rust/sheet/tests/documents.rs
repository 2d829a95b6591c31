//! What the documentation shows is what the command does: each `$ sheet` line of
//! a console block is run in a copy of an example, which may be named beside
//! `console`, and what it prints compared; each schema and mapping shown is read.

mod common;

use common::{documentation, example, names_in, repository, Folder};
use sheet::kinds::{Kind, KINDS};
use sheet::{Mapping, Schema};
use std::fs;
use std::path::Path;

/// The blocks of a page: what stands after the opening marks, and the lines.
fn blocks(page: &str) -> Vec<(String, Vec<String>)> {
    let mut blocks = Vec::new();
    let mut open: Option<(String, Vec<String>)> = None;
    for line in page.lines() {
        match (line.strip_prefix("```"), open.take()) {
            (Some(_), Some(block)) => blocks.push(block),
            (Some(sort), None) => open = Some((sort.to_string(), Vec::new())),
            (None, Some((sort, mut lines))) => {
                lines.push(line.to_string());
                open = Some((sort, lines));
            }
            (None, None) => {}
        }
    }
    assert!(open.is_none(), "a block without its end");
    blocks
}

/// Runs the console blocks of a page that name no example, in the order of the
/// page.
fn run_page(page: &Path, example_name: &str) -> usize {
    run_blocks(page, "console", example_name)
}

/// Runs the blocks of a page with these words after the opening marks.
fn run_blocks(page: &Path, marked: &str, example_name: &str) -> usize {
    let stem = page.file_stem().unwrap().to_string_lossy();
    let folder = Folder::with_example(&format!("page-{example_name}-{stem}"), example_name);
    let text = fs::read_to_string(page).unwrap();
    let mut ran = 0;
    for (_, lines) in blocks(&text).iter().filter(|(sort, _)| sort == marked) {
        let mut lines = lines.iter().peekable();
        while let Some(line) = lines.next() {
            let words = line.strip_prefix("$ sheet ").expect("a line of the command");
            let mut expected = String::new();
            while let Some(printed) = lines.next_if(|line| !line.starts_with("$ ")) {
                expected.push_str(printed);
                expected.push('\n');
            }
            let left = folder.sheet(words);
            assert_eq!(left.out() + &left.err(), expected, "{}: {line}", page.display());
            ran += 1;
        }
    }
    ran
}

#[test]
fn the_pages_show_what_the_command_does() {
    let folder = documentation();
    let (mut pages, mut of_the_book, mut of_the_digs, mut of_the_exchange) = (0, 0, 0, 0);
    for name in names_in(&folder).iter().filter(|name| name.ends_with(".md")) {
        assert!(run_page(&folder.join(name), "base") > 0, "{name} shows no command");
        of_the_book += run_blocks(&folder.join(name), "console book", "book");
        of_the_digs += run_blocks(&folder.join(name), "console dig", "dig");
        of_the_exchange += run_blocks(&folder.join(name), "console exchange", "exchange");
        pages += 1;
    }
    assert_eq!(pages, 5);
    assert_eq!((of_the_book, of_the_digs, of_the_exchange), (9, 3, 3));
}

#[test]
fn the_examples_readmes_show_what_the_command_does() {
    assert!(run_page(&example("base").join("README.md"), "base") >= 8);
    assert!(run_page(&example("book").join("README.md"), "book") >= 8);
    assert!(run_page(&example("dig").join("README.md"), "dig") >= 8);
    assert!(run_page(&example("exchange").join("README.md"), "exchange") >= 7);
}

/// The README's commands, from the repository's folder: building the tool, one
/// command of it, and showing a file that it wrote.
#[test]
fn the_readme_shows_what_the_command_does() {
    let folder = Folder::new("page-readme");
    fs::create_dir_all(folder.join("examples/base")).unwrap();
    common::copy(&example("base"), &folder.join("examples/base"));
    let readme = fs::read_to_string(repository().join("README.md")).unwrap();
    let block = blocks(&readme).into_iter().find(|(sort, _)| sort == "console");
    let (_, lines) = block.expect("a console block");
    let commands: Vec<&String> = lines.iter().filter(|line| line.starts_with("$ ")).collect();
    let [build, sheet, cat] = commands.as_slice() else { panic!("three commands") };
    let make = "$ cargo build --quiet --release --manifest-path rust/Cargo.toml -p sheet";
    assert_eq!(*build, make);
    folder.sheet(sheet.strip_prefix("$ rust/target/release/sheet ").unwrap()).silent();
    let shown = folder.read(cat.strip_prefix("$ cat ").unwrap());
    let printed: String = lines[3..].iter().map(|line| format!("{line}\n")).collect();
    assert_eq!(String::from_utf8(shown).unwrap(), printed);
}

/// The picture in the documentation is made from this text, by Graphviz:
/// `dot -Tsvg base-mapping.dot -o base-mapping.svg`.
#[test]
fn the_stored_drawing_is_todays() {
    let folder = Folder::with_example("drawing", "base");
    let drawn = folder.sheet(&format!("draw mapping {}", common::MAPPED));
    let stored = fs::read_to_string(documentation().join("base-mapping.dot")).unwrap();
    drawn.printed(&stored);
    let picture = fs::read_to_string(documentation().join("base-mapping.svg")).unwrap();
    for text in ["Dent", "Loss", "Anomaly", "station → Anomaly.station", "→ Anomaly.joint"] {
        assert!(picture.contains(text), "{text}");
    }
}

#[test]
fn the_schemas_and_mappings_shown_are_read() {
    let read = |name: &str| fs::read_to_string(documentation().join(name)).unwrap();
    let schema = |name: &str| {
        let text = fs::read_to_string(example("base").join(name)).unwrap();
        Schema::parse(name, &text).unwrap().0
    };
    let mut shown = 0;
    for (sort, lines) in blocks(&read("schema.md")) {
        if sort == "schema" {
            let (found, _) = Schema::parse("schema.md", &lines.join("\n")).unwrap();
            assert_eq!(migration::check_schema(&found.to_sheet().unwrap()), Ok(()));
            shown += 1;
        }
    }
    let (s, t) = (schema("vendor.schema"), schema("operator.schema"));
    for (sort, lines) in blocks(&read("mapping.md")) {
        if sort == "mapping" {
            Mapping::parse("mapping.md", &lines.join("\n"), &s, &t).unwrap();
            shown += 1;
        }
    }
    assert_eq!(shown, 2);
}

/// Kinds 0 to 7 stand in the left half of the table, 8 to 15 in the right half.
#[test]
fn the_kinds_shown_are_the_tools() {
    let page = fs::read_to_string(documentation().join("schema.md")).unwrap();
    let half = |kind: &Kind| {
        let Kind { name, unit, smallest, largest, .. } = kind;
        format!("| `{name}` | {unit} | {smallest} to {largest} ").replace("|  |", "| |")
    };
    let rows = page.lines().skip_while(|line| !line.starts_with("| Kind |")).skip(2);
    let rows: Vec<&str> = rows.take_while(|line| !line.is_empty()).collect();
    let (left, right) = KINDS.split_at(8);
    let kinds = left.iter().zip(right).map(|(left, right)| half(left) + &half(right) + "|");
    assert_eq!(rows, kinds.collect::<Vec<_>>());
}
