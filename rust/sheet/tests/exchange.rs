//! The exchange example: the composed text has the names of S and U and no comments,
//! is read back to the same sheet, and pulls a book back as its two mappings do;
//! sheets may stand for texts, and the order counts.

mod common;

use common::{example, hex, names_in, Folder, Ran, EXCHANGE_MAPPINGS, EXCHANGE_SCHEMAS};
use std::fs;

/// The words of `compose`.
fn lent() -> String {
    format!("{EXCHANGE_SCHEMAS} {EXCHANGE_MAPPINGS}")
}

/// S, U and the composed mapping.
const COMPOSED: &str = "vendor.schema operator.schema composed.mapping";

/// The example's composed sheet by hand: the tables, the links, the columns.
const SHEET: &str = "00 12 31 01 00 42 01 08 88 84 30 10 12 34";

fn accepted(ran: Ran) -> Ran {
    assert_eq!((ran.err().as_str(), ran.status()), ("", 0));
    ran
}

#[test]
fn the_text_is_read_back_to_the_same_bytes() {
    let folder = Folder::with_example("exchange-text", "exchange");
    let printed = accepted(folder.sheet(&format!("compose {}", lent()))).out();
    folder.sheet(&format!("compose {} -o composed.mapping", lent())).silent();
    assert_eq!(folder.read("composed.mapping"), printed.as_bytes());
    folder.sheet(&format!("compose {} -o composed.sheet", lent())).silent();
    assert_eq!(folder.read("composed.sheet"), hex(SHEET));
    folder.sheet(&format!("pack --hex mapping {COMPOSED}")).printed(&format!("{SHEET}\n"));
    folder.sheet(&format!("show mapping {COMPOSED}")).printed(&printed);
    folder.sheet("show mapping vendor.schema operator.schema composed.sheet").printed(&printed);
}

#[test]
fn the_text_has_no_comments_and_no_names_of_t() {
    let folder = Folder::with_example("exchange-names", "exchange");
    let text = accepted(folder.sheet(&format!("compose {}", lent()))).out();
    assert!(EXCHANGE_MAPPINGS.split(' ').all(|name| folder.read(name).contains(&b'#')));
    assert!(!text.contains('#'));
    for name in ["Feature", "Pipe", "Pipe_End", "start", "distance"] {
        assert!(!text.contains(name), "{name}");
    }
    // Nor does it change with the order of the lines.
    for name in EXCHANGE_MAPPINGS.split(' ') {
        let lines = String::from_utf8(folder.read(name)).unwrap();
        let turned: Vec<&str> = lines.lines().rev().collect();
        folder.write(name, turned.join("\r\n"));
    }
    folder.sheet(&format!("compose {}", lent())).printed(&text);
}

#[test]
fn the_composite_pulls_the_book_back_as_its_mappings_in_turn() {
    let folder = Folder::with_example("exchange-in-turn", "exchange");
    folder.sheet(&format!("compose {} -o composed.mapping", lent())).silent();
    let (f, g) = EXCHANGE_MAPPINGS.split_once(' ').unwrap();
    let delta = |words: &str| folder.sheet(&format!("delta {words}")).silent();
    delta(&format!("exchange.schema operator.schema {g} book -o exchanged"));
    for (composite, in_turn) in [("composite.sheet", "in-turn.sheet"), ("composite", "in-turn")] {
        delta(&format!("{COMPOSED} book -o {composite}"));
        delta(&format!("vendor.schema exchange.schema {f} exchanged -o {in_turn}"));
    }
    assert_eq!(folder.read("composite.sheet"), folder.read("in-turn.sheet"));
    assert_eq!(names_in(&folder.join("composite")), names_in(&folder.join("in-turn")));
    for name in names_in(&folder.join("composite")) {
        assert_eq!(
            folder.read(&format!("composite/{name}")),
            folder.read(&format!("in-turn/{name}"))
        );
    }
    // The welds are those of the joints, by the book itself.
    let book = fs::read_to_string(example("exchange").join("book/Anomaly.csv")).unwrap();
    for table in ["Dent", "Metal_Loss"] {
        let expected = book.replace("joint,reference", "spool,weld");
        assert_eq!(
            String::from_utf8(folder.read(&format!("composite/{table}.csv"))).unwrap(),
            expected
        );
    }
}

/// Composed with a mapping of each table, link and column to itself, a mapping stays.
#[test]
fn a_mapping_to_itself_changes_nothing() {
    let folder = Folder::with_example("exchange-same", "exchange");
    let (f, g) = EXCHANGE_MAPPINGS.split_once(' ').unwrap();
    for name in ["vendor", "exchange"] {
        let text = String::from_utf8(folder.read(&format!("{name}.schema"))).unwrap();
        let names = text.lines().filter_map(|line| {
            let (sort, fact) = line.split_once(' ')?;
            let name = fact.split(' ').next()?;
            ["node", "link", "column"].contains(&sort).then(|| format!("{name} -> {name}\n"))
        });
        folder.write(&format!("{name}.mapping"), names.collect::<String>());
    }
    let shown =
        accepted(folder.sheet(&format!("show mapping vendor.schema exchange.schema {f}"))).out();
    let s = "vendor.schema";
    let t = "exchange.schema";
    folder.sheet(&format!("compose {s} {s} {t} vendor.mapping {f}")).printed(&shown);
    folder.sheet(&format!("compose {s} {t} {t} {f} exchange.mapping")).printed(&shown);
    let u = "operator.schema";
    let shown = accepted(folder.sheet(&format!("show mapping {t} {u} {g}"))).out();
    folder.sheet(&format!("compose {t} {t} {u} exchange.mapping {g}")).printed(&shown);
}

/// Packs the example's five files as `1.sheet` to `5.sheet`.
fn pack_all(folder: &Folder) {
    for (place, name) in (1..).zip(EXCHANGE_SCHEMAS.split(' ')) {
        folder.sheet(&format!("pack schema {name} -o {place}.sheet")).silent();
    }
    let between = ["vendor.schema exchange", "exchange.schema operator"];
    for ((place, schemas), name) in (4..).zip(between).zip(EXCHANGE_MAPPINGS.split(' ')) {
        folder.sheet(&format!("pack mapping {schemas}.schema {name} -o {place}.sheet")).silent();
    }
}

#[test]
fn sheets_may_stand_for_texts() {
    let folder = Folder::with_example("exchange-sheets", "exchange");
    pack_all(&folder);
    let expected = hex(SHEET);
    let text = accepted(folder.sheet(&format!("compose {}", lent()))).out();
    let sheets: Vec<String> = (1..=5).map(|place| format!("{place}.sheet")).collect();
    let all = format!("compose {} -o sheet:-", sheets.join(" "));
    assert_eq!(accepted(folder.sheet(&all)).0.stdout, expected);
    // Each mapping as the only sheet, by its name or on standard input.
    let texts = lent();
    for place in 3..5 {
        let mut words: Vec<&str> = texts.split(' ').collect();
        let input = folder.read(&sheets[place]);
        for word in [sheets[place].as_str(), "-"] {
            words[place] = word;
            folder.run(&[&["compose"], &words[..]].concat(), &input).printed(&text);
        }
    }
    // T as a sheet has no names to be kept, and none are asked for.
    let mixed = format!("vendor.schema 2.sheet operator.schema {} {}", sheets[3], sheets[4]);
    folder.sheet(&format!("compose {mixed}")).printed(&text);
    // Nor has U; the text is read back with the names that it is given.
    let nameless = format!("vendor.schema 2.sheet 3.sheet {} {}", sheets[3], sheets[4]);
    folder.sheet(&format!("compose {nameless} -o nameless.mapping")).silent();
    let written = String::from_utf8(folder.read("nameless.mapping")).unwrap();
    assert!(written.starts_with("Dent -> node0\nDent.spool -> node0.link0\n"), "{written}");
    folder
        .sheet("pack --hex mapping vendor.schema 3.sheet nameless.mapping")
        .printed(&format!("{SHEET}\n"));
}

#[test]
fn existing_files_are_kept_without_force() {
    let folder = Folder::with_example("exchange-force", "exchange");
    folder.write("composed.mapping", "precious");
    let compose = format!("compose {} -o composed.mapping", lent());
    folder.sheet(&compose).bad("sheet: composed.mapping exists; --force replaces it\n");
    assert_eq!(folder.read("composed.mapping"), b"precious");
    folder.sheet(&format!("{compose} --force")).silent();
    folder.sheet(&format!("pack --hex mapping {COMPOSED}")).printed(&format!("{SHEET}\n"));
}

#[test]
fn the_order_of_the_texts_counts() {
    let folder = Folder::with_example("exchange-order", "exchange");
    let (f, g) = EXCHANGE_MAPPINGS.split_once(' ').unwrap();
    let begins = |words: &str, told: &str| {
        let ran = folder.sheet(&format!("compose {words} -o made"));
        assert!(ran.err().starts_with(told), "{}", ran.err());
        assert_eq!((ran.status(), ran.out().as_str()), (2, ""));
        assert!(!folder.join("made").exists());
    };
    begins(
        &format!("{EXCHANGE_SCHEMAS} {g} {f}"),
        "exchange-to-operator.mapping line 3: the mapped schema has no node `Feature`; its nodes: Dent, ",
    );
    begins(
        &format!("operator.schema exchange.schema vendor.schema {f} {g}"),
        "vendor-to-exchange.mapping line 3: the mapped schema has no node `Dent`; its nodes: Anomaly, ",
    );
    begins(
        &format!("{EXCHANGE_SCHEMAS} {f} {f}"),
        "vendor-to-exchange.mapping line 3: the mapped schema has no node `Dent`; its nodes: Feature, ",
    );
    begins(
        &format!("{EXCHANGE_MAPPINGS} {EXCHANGE_SCHEMAS}"),
        "vendor-to-exchange.mapping line 3: `Dent` begins no fact; expected node, link, column or equation\n",
    );
    let bad = |line: &str, what: &str| {
        folder.sheet(line).bad(&format!("sheet: {what}\nsee `sheet help compose`\n"));
    };
    bad(&format!("compose {EXCHANGE_SCHEMAS} {f}"), "expected S T U F G; 4 given");
    bad(&format!("compose {} book", lent()), "expected S T U F G; 6 given");
    bad(&format!("compose {EXCHANGE_SCHEMAS} - -"), "standard input can be lent only once");
    bad(&format!("compose {} --hex", lent()), "compose takes no --hex");
    bad(&format!("compose {} --pushed a", lent()), "compose takes no --pushed");
}
