//! What composing refuses: the sheet by its place and file, or the tray; each met by
//! an example whose message is compared.

mod common;

use common::{hex, misfit, Folder, EXCHANGE_MAPPINGS, EXCHANGE_SCHEMAS};

/// A copy of the exchange example with one file changed by replacing a text.
fn changed(name: &str, file: &str, from: &str, to: &str) -> Folder {
    let folder = Folder::with_example(name, "exchange");
    let text = String::from_utf8(folder.read(file)).unwrap();
    assert!(text.contains(from), "{from}");
    folder.write(file, text.replace(from, to));
    folder
}

fn compose(folder: &Folder) -> common::Ran {
    folder.sheet(&format!("compose {EXCHANGE_SCHEMAS} {EXCHANGE_MAPPINGS}"))
}

#[test]
fn schemas_at_places_1_to_3() {
    let folder = Folder::with_example("compose-schemas", "exchange");
    folder.write("short.sheet", hex("10 21"));
    let schemas: Vec<&str> = EXCHANGE_SCHEMAS.split(' ').collect();
    for (place, name) in (1..).zip(["S", "T", "U"]) {
        // The files after it are not read.
        let mut words = ["nowhere"; 5];
        words[..place - 1].copy_from_slice(&schemas[..place - 1]);
        words[place - 1] = "short.sheet";
        folder.sheet(&format!("compose {}", words.join(" "))).refused(&format!(
            "short.sheet: the sheet ends after 2 bytes, inside the leading counts (1, cut)
compose refused sheet {place}, schema {name} (short.sheet): the bits end before the last field does
mend: lend the whole sheet
"
        ));
    }
    let folder = changed(
        "compose-ring",
        "operator.schema",
        "link Weld.section -> Section",
        "link Weld.section -> Section\nlink Weld.first -> Anomaly",
    );
    compose(&folder).refused(
        "operator.schema line 12: Anomaly.joint, Joint.upstream, Weld.first lead from Anomaly back to Anomaly (5, ring)
compose refused sheet 3, schema U (operator.schema): the edges form a loop
mend: take out one of these links
",
    );
}

#[test]
fn images_of_f_and_g_that_do_not_fit() {
    let folder = changed(
        "compose-misfit-f",
        "vendor-to-exchange.mapping",
        "Spool.weld -> Pipe.start.weld",
        "Spool.weld -> Pipe.start",
    );
    compose(&folder).refused(&format!(
        "vendor-to-exchange.mapping line 16: Spool.weld goes to Pipe.start, which ends at Pipe_End, but Girth_Weld goes to Weld (7, misfit)
compose refused sheet 4, mapping F (vendor-to-exchange.mapping): {}
mend: send Spool.weld to a path from Pipe to Weld
",
        misfit("T")
    ));
    let folder = changed(
        "compose-misfit-g",
        "exchange-to-operator.mapping",
        "Feature.depth -> Anomaly.depth",
        "Feature.depth -> Anomaly.station",
    );
    compose(&folder).refused(&format!(
        "exchange-to-operator.mapping line 7: Feature.depth is of kind depth, but Anomaly.station of kind station (7, misfit)
compose refused sheet 5, mapping G (exchange-to-operator.mapping): {}
mend: send Feature.depth to a column of kind depth at Anomaly
",
        misfit("U")
    ));
}

/// A sheet may name a node that U has not.
#[test]
fn an_image_of_g_that_is_missing() {
    let folder = Folder::with_example("compose-missing", "exchange");
    let (f, g) = EXCHANGE_MAPPINGS.split_once(' ').unwrap();
    folder.sheet(&format!("pack mapping exchange.schema operator.schema {g} -o g.sheet")).silent();
    let mut sheet = folder.read("g.sheet");
    sheet[0] |= 0x50; // the first node to node 5
    folder.write("g.sheet", &sheet);
    folder.sheet(&format!("compose {EXCHANGE_SCHEMAS} {f} g.sheet")).refused(&format!(
        "g.sheet: Feature goes to node 5, but the nodes of U are 0 to 3 (7, misfit)
compose refused sheet 5, mapping G (g.sheet): {}
mend: send Feature to a node of U
",
        misfit("U")
    ));
}

#[test]
fn mapping_sheets_that_are_cut_or_followed() {
    let folder = Folder::with_example("compose-cut", "exchange");
    let (f, g) = EXCHANGE_MAPPINGS.split_once(' ').unwrap();
    folder.write("short.sheet", hex("00"));
    folder.sheet(&format!("compose {EXCHANGE_SCHEMAS} short.sheet nowhere")).refused(
        "short.sheet: the sheet ends after 1 byte, inside the image of Spool (1, cut)
compose refused sheet 4, mapping F (short.sheet): the bits end before the last field does
mend: lend the whole sheet; or lend the schema that it was packed for
",
    );
    folder.sheet(&format!("pack mapping exchange.schema operator.schema {g} -o g.sheet")).silent();
    let mut sheet = folder.read("g.sheet");
    let length = sheet.len();
    sheet.push(0);
    folder.write("g.sheet", &sheet);
    folder.sheet(&format!("compose {EXCHANGE_SCHEMAS} {f} g.sheet")).refused(&format!(
        "g.sheet: 1 byte follows the last field, which ends in byte {length} (2, tail)
compose refused sheet 5, mapping G (g.sheet): a filling bit is 1, or a byte follows
mend: lend its first {length} bytes alone; or lend the schema that it was packed for
"
    ));
}

/// The images that differ, and what each is equal to, in T for F and in U for G.
#[test]
fn equations_that_f_and_g_break() {
    let folder = changed(
        "compose-rule-f",
        "exchange.schema",
        "equation Feature.pipe.start.weld = Feature.reference\n",
        "",
    );
    compose(&folder).refused(
        "vendor.schema line 27: equation Metal_Loss.spool.weld = Metal_Loss.weld goes to Feature.pipe.start.weld = Feature.reference, which are unequal in T (8, broken rule)
  equal to Feature.pipe.start.weld in T: no other path
  equal to Feature.reference in T: no other path
compose refused sheet 4, mapping F (vendor-to-exchange.mapping): an equation of S has unequal images in T
mend: send the links to other paths, or state `equation Feature.pipe.start.weld = Feature.reference` in exchange.schema
",
    );
    let folder = changed(
        "compose-rule-g",
        "operator.schema",
        "equation Anomaly.joint.upstream = Anomaly.reference\n",
        "",
    );
    let page = std::fs::read_to_string(common::documentation().join("commands.md")).unwrap();
    let told = compose(&folder);
    assert!(page.contains(&format!("```text\n{}```\n", told.err())), "{}", told.err());
    assert!(told.err().contains("which are unequal in U (8, broken rule)\n"));
    assert_eq!((told.status(), told.out().as_str()), (1, ""));
    // What an image is equal to is told by the paths of U.
    folder.write(
        "operator.schema",
        String::from_utf8(folder.read("operator.schema")).unwrap()
            + "link Anomaly.nearest -> Weld\nequation Anomaly.nearest = Anomaly.reference\n",
    );
    let told = compose(&folder).err();
    assert!(told.contains("\n  equal to Anomaly.reference in U: Anomaly.nearest\n"), "{told}");
}

#[test]
fn refusal_16_small_tray() {
    let folder = Folder::with_example("compose-16", "exchange");
    let lent = format!("{EXCHANGE_SCHEMAS} {EXCHANGE_MAPPINGS}");
    for target in ["made.mapping", "made.sheet"] {
        folder.sheet(&format!("compose --tray 13 {lent} -o {target}")).refused(
            "the tray: the result needs 14 bytes, but 13 were lent (16, small tray)
compose refused, place 0: a result needs more bytes than were lent
mend: lend 14 bytes; 332 hold every result
",
        );
        assert!(!folder.join(target).exists());
        folder.sheet(&format!("compose --tray 14 {lent} -o {target}")).silent();
    }
    assert_eq!(folder.read("made.sheet").len(), 14);
    // A mapping that is sent back comes before the tray.
    let folder = changed(
        "compose-16-later",
        "exchange-to-operator.mapping",
        "Feature.depth -> Anomaly.depth",
        "Feature.depth -> Anomaly.station",
    );
    let told = folder.sheet(&format!("compose --tray 0 {lent}"));
    assert!(told.err().contains("\ncompose refused sheet 5, mapping G "), "{}", told.err());
}
