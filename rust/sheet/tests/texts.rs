//! Bad text: file, line and what was expected, on standard error, with exit
//! status 2.

mod common;

use common::{Folder, MAPPED};

/// The errors of a schema's text.
fn schema_errors(name: &str, text: &str) -> String {
    let folder = Folder::new(name);
    folder.write("a.schema", text);
    let ran = folder.sheet("pack schema a.schema -o a.sheet");
    assert_eq!((ran.status(), ran.out().as_str()), (2, ""));
    assert_eq!(folder.names(), ["a.schema"]);
    ran.err()
}

#[test]
fn schemas() {
    let told = |text: &str| schema_errors("text-schema", text);
    assert_eq!(
        told("node A\nlink A.b -> B\nnode a\nnode A\nnode 1st\n"),
        "a.schema line 2: no node is named `B`; the nodes: A
a.schema line 3: node a differs from A on line 1 only in upper and lower case; their files would be one on some systems
a.schema line 4: node A is already on line 1
a.schema line 5: expected `node NAME`; a name has letters, digits, _ and -, and begins with a letter or _
"
    );
    assert_eq!(
        told("node A\nlink A.b\nlink A -> A\ncolumn A.row : depth\ncolumn A.c : color\nedge A.b -> A\n"),
        "a.schema line 2: expected `link NODE.NAME -> NODE`
a.schema line 3: expected `link NODE.NAME -> NODE`
a.schema line 4: `row` is the header of the row numbers; expected another name
a.schema line 5: no kind is named `color`; the kinds: plain, station, clock, depth, length, width, wall, diameter, pressure, temperature, day, second, speed, identifier, flag, unused
a.schema line 6: `edge` begins no fact; expected node, link, column or equation
"
    );
    assert_eq!(
        told("node A\nnode B\nlink A.b -> B\ncolumn A.b : depth\ncolumn A.c : wall\nequation A.b.b = A.c\nequation A.b\n"),
        "a.schema line 4: A.b is already a link on line 3
a.schema line 6: B has no link b; its links: none
a.schema line 7: expected `equation PATH = PATH`, a path being NODE.LINK.LINK
"
    );
    let nodes: String = (0..33).map(|number| format!("node N{number}\n")).collect();
    assert_eq!(
        told(&nodes),
        "a.schema line 32: too many nodes; a schema has at most 16
a.schema line 33: too many nodes; a schema has at most 16
"
    );
    let ring = "node A\nlink A.a -> A\nequation A.a.a.a.a.a.a.a.a.a.a.a.a.a.a.a.a = A\n";
    assert_eq!(told(ring), "a.schema line 3: a path of 16 links; a sheet holds at most 15\n");
    let many: String = (0..30).map(|_| "odd\n").collect();
    assert!(told(&many).ends_with("and 10 more\n"));
}

#[test]
fn a_sheet_that_is_not_named_so_is_recognised_as_no_text() {
    let folder = Folder::new("text-bytes");
    folder.write("a.schema", [0x18, 0x42, 0x00, 0x0A, 0x84]);
    folder
        .sheet("check schema a.schema")
        .bad("a.schema line 2: not UTF-8 text; a sheet is named .sheet or written as sheet:FILE\n");
}

#[test]
fn mappings() {
    let folder = Folder::with_example("text-mapping", "base");
    let told = |text: &str| {
        folder.write("a.mapping", text);
        let ran = folder.sheet("check mapping vendor.schema operator.schema a.mapping");
        assert_eq!((ran.status(), ran.out().as_str()), (2, ""));
        ran.err()
    };
    let text = String::from_utf8(folder.read("vendor-to-operator.mapping")).unwrap();
    assert_eq!(
        told(&text.replace("Loss.joint -> Anomaly.joint\n", "").replace("Joint -> Joint\n", "")),
        "a.mapping: no line for Joint; expected `Joint -> NODE`
a.mapping: no line for Loss.joint; expected `Loss.joint -> PATH`
"
    );
    assert_eq!(
        told(&text.replace("Dent.joint -> Anomaly.joint", "Dent.joint -> Joint")),
        "a.mapping line 4: Joint; expected a path from Anomaly, to which Dent goes\n"
    );
    assert_eq!(
        told(&text.replace("Dent.joint -> Anomaly.joint", "Dent.joint -> Anomaly.station")),
        "a.mapping line 4: Anomaly.station is a column, not a link; Anomaly's links: joint\n"
    );
    assert_eq!(
        told(&text.replace("Dent.station -> Anomaly.station", "Dent.station -> Anomaly")),
        "a.mapping line 5: `Anomaly` is no column; expected NODE.COLUMN of the other schema\n"
    );
    assert_eq!(
        told(&format!("{text}Dent -> Joint\nWeld -> Joint\nDent.wall -> Joint\nDent\n")),
        "a.mapping line 12: Dent already has its image on line 3
a.mapping line 13: the mapped schema has no node `Weld`; its nodes: Dent, Joint, Loss
a.mapping line 14: Dent has no link or column wall; it has: joint, station
a.mapping line 15: expected `NODE -> NODE`, `NODE.LINK -> PATH` or `NODE.COLUMN -> NODE.COLUMN`
"
    );
}

/// The errors of the base example's dents.
fn dent_errors(folder: &Folder, text: &str) -> String {
    folder.write("run/Dent.csv", text);
    let ran = folder.sheet("check instance vendor.schema run");
    assert_eq!((ran.status(), ran.out().as_str()), (2, ""));
    ran.err()
}

#[test]
fn tables() {
    let folder = Folder::with_example("text-tables", "base");
    let told = |text: &str| dent_errors(&folder, text);
    assert_eq!(told(""), "run/Dent.csv: is empty; expected `row,joint,station`\n");
    assert_eq!(
        told("row,joint\n0,1\n"),
        "run/Dent.csv line 1: no header station; expected `row,joint,station`\n"
    );
    assert_eq!(
        told("row,joint,station,depth\n"),
        "run/Dent.csv line 1: header `depth`; expected `row,joint,station`\n"
    );
    assert_eq!(
        told("row,joint,joint,station\n"),
        "run/Dent.csv line 1: header `joint` twice; expected `row,joint,station`\n"
    );
    assert_eq!(
        told("row,joint,station\n0,1,7oo\n1,,300\n2,1,300,5\n3,1,4294967296\n"),
        "run/Dent.csv line 2: station is `7oo`; expected a whole number from 0 to 4294967295
run/Dent.csv line 3: joint is empty; expected a whole number from 0 to 4294967295
run/Dent.csv line 4: `5` stands beyond the last header; expected 3 cells
run/Dent.csv line 5: station is `4294967296`; expected a whole number from 0 to 4294967295
"
    );
    assert_eq!(
        told("row,joint,station\n0,1,700\n0,1,701\n"),
        "run/Dent.csv line 3: row 0 is already on line 2; expected each row once\n"
    );
    assert_eq!(
        told("row,joint,station\n0,1,700\n2,1,701\n"),
        "run/Dent.csv line 3: row 2, but there is no row 1; expected rows 0, 1, 2 and so on\n"
    );
    assert_eq!(
        told("row,joint,station\n0,1,\"700\n"),
        "run/Dent.csv line 2: a quote without its end; expected `\"`\n"
    );
    assert_eq!(
        told("row,joint,station\n0,1,700\n1,900,5\n"),
        "run/Dent.csv line 3: joint is `900`, but Joint has 2 rows; a sheet holds row numbers up to 511\n"
    );
    let rows: String = (0..1024).map(|row| format!("{row},0,0\n")).collect();
    assert_eq!(
        told(&format!("row,joint,station\n{rows}")),
        "run/Dent.csv: 1024 rows; an instance has at most 512\n"
    );
}

#[test]
fn a_cell_without_a_value_is_told_its_kinds_range() {
    let folder = Folder::new("text-values");
    folder.write("clock.schema", "node Weld\ncolumn Weld.seam : clock\n");
    folder.write("run/Weld.csv", "row,seam\n0,\n1,12:14\n2,4294967296\n");
    folder.sheet("check instance clock.schema run").bad(
        "run/Weld.csv line 2: seam is empty; expected a whole number from 1 to 720
run/Weld.csv line 3: seam is `12:14`; expected a whole number from 1 to 720
run/Weld.csv line 4: seam is `4294967296`; expected a whole number from 1 to 720
",
    );
}

#[test]
fn tables_as_spreadsheets_write_them() {
    let folder = Folder::with_example("text-spreadsheet", "base");
    let accepted = "accepted: rows 5 (Dent 2, Joint 2, Loss 1)\n";
    for text in [
        "\u{feff}\"row\",\"joint\",\"station\"\r\n\"0\",\"1\",\"700\"\r\n\"1\",\"0\",\"300\"\r\n",
        "row;joint;station;;\r\n0;1;700;;\r\n1;0;300;;\r\n;;;;\r\n",
        "station\trow\tjoint\n300\t1\t0\n700\t0\t1\n",
        "# surveyed twice\nrow, joint, station\n\n0, 1, 700\n# row 1 was found later\n1, 0, 300",
    ] {
        folder.write("run/Dent.csv", text);
        folder.sheet("check instance vendor.schema run").printed(accepted);
        let packed = folder.sheet("pack --hex instance vendor.schema run");
        packed.printed("00 80 20 04 02 00 00 80 00 01 5E 00 00 00 96 00 00 01 60 80\n");
    }
    folder.write("run/notes.txt", "not a table");
    folder.write("run/.Dent.csv", "hidden");
    folder.sheet("check instance vendor.schema run").printed(accepted);
}

#[test]
fn folders() {
    let folder = Folder::with_example("text-folder", "base");
    folder.write("run/Dents.csv", "row\n");
    std::fs::remove_file(folder.join("run/Joint.csv")).unwrap();
    folder.write("run/Loss.csv", [b'r', 0xE4]);
    folder.sheet("check instance vendor.schema run").bad(
        "run/Dents.csv: is the file of no table; the tables: Dent, Joint, Loss
run/Joint.csv: is missing; expected one file for each table, with a header line where it has no rows
run/Loss.csv: is not UTF-8 text; save it as CSV in UTF-8
",
    );
    let nowhere = folder.sheet("check instance vendor.schema nowhere");
    assert!(nowhere.err().starts_with("nowhere: cannot be read: "), "{}", nowhere.err());
    assert_eq!(nowhere.status(), 2);
    folder.sheet("check instance vendor.schema raw.csv").bad(
        "sheet: raw.csv is a file; expected a folder with a CSV file for each table, \
         or a sheet named .sheet or written as sheet:raw.csv\n",
    );
}

#[test]
fn matchings() {
    let folder = Folder::with_example("text-matching", "base");
    let told = |text: &str| {
        folder.write("a.csv", text);
        let ran = folder.sheet(&format!("match pushed {MAPPED} run book a.csv"));
        assert_eq!((ran.status(), ran.out().as_str()), (2, ""));
        ran.err()
    };
    assert_eq!(told(""), "a.csv: is empty; expected `table,row,partner`\n");
    assert_eq!(told("table,row\n"), "a.csv line 1: expected `table,row,partner`\n");
    assert_eq!(
        told("table,row,partner,why\n"),
        "a.csv line 1: header `why`; expected `table,row,partner`\n"
    );
    assert_eq!(told("table,row,row,partner\n"), "a.csv line 1: expected `table,row,partner`\n");
    assert_eq!(
        told("table,row,partner\nAnomaly,0,2,9\n"),
        "a.csv line 2: `9` stands beyond the last header; expected 3 cells\n"
    );
    assert_eq!(
        told("table,row,partner\nDent,0,0\nJoint,x,0\nJoint,0,512\n"),
        "a.csv line 2: no table is named `Dent`; the tables: Anomaly, Joint
a.csv line 3: row is `x`; expected a whole number from 0 to 511
a.csv line 4: partner is `512`; expected a whole number from 0 to 511
"
    );
    assert_eq!(
        told("table,row,partner\nJoint,0,0\nJoint,0,1\nAnomaly,1,0\n"),
        "a.csv line 3: Joint row 0 is already on line 2; expected each row once
a.csv line 4: Anomaly row 1, but there is no row 0; expected rows 0, 1, 2 and so on
"
    );
    // As many rows in all as the pushed run, but not table by table: as a sheet
    // the list would be read otherwise than it is written.
    assert_eq!(
        told("table,row,partner\nAnomaly,0,2\nAnomaly,1,0\nJoint,0,1\nJoint,1,0\nJoint,2,1\n"),
        "a.csv: 2 rows of Anomaly in the list, but 3 in the pushed run\n"
    );
}

#[test]
fn lists_that_are_shown() {
    let folder = Folder::with_example("text-shown-list", "base");
    folder
        .sheet("show matching operator.schema book pushed.csv")
        .printed(&String::from_utf8(folder.read("pushed.csv")).unwrap());
    folder.write("less.csv", "table,row,partner\nJoint,0,0\n");
    folder
        .sheet("show matching operator.schema book less.csv")
        .bad("less.csv: has other rows than the instance; expected Anomaly 3, Joint 2\n");
    folder.write("short.sheet", [0, 0, 0]);
    folder.sheet("show matching operator.schema book short.sheet").bad(
        "sheet: short.sheet cannot be decoded: the sheet ends after 3 bytes, inside the partner of Anomaly row 2\n",
    );
}

#[test]
fn paths() {
    let folder = Folder::with_example("text-path", "base");
    folder
        .sheet("same-path vendor.schema Dent.joint Dent.weld")
        .bad("path Dent.weld: Dent has no link weld; its links: joint\n");
    folder
        .sheet("pack path vendor.schema Dint")
        .bad("path Dint: no node is named `Dint`; the nodes: Dent, Joint, Loss\n");
}

#[test]
fn words_that_make_no_row() {
    let folder = Folder::with_example("row-words", "base");
    let before = folder.files();
    let told = |words: &str, told: &[&str]| {
        let errors: String =
            told.iter().map(|told| format!("the new row of Dent: {told}\n")).collect();
        let in_place = "-o run --pushed pushed --force";
        folder.sheet(&format!("add-row {MAPPED} run Dent {words} {in_place}")).bad(&errors);
        folder.sheet(&format!("pack row vendor.schema Dent {words}")).bad(&errors);
    };
    let expected = "expected joint=(row of Joint) station=(station)";
    told("", &[&format!("no joint, station; {expected}")]);
    told("station=650", &[&format!("no joint; {expected}")]);
    told("joint=0 650", &[&format!("`650`; {expected}")]);
    told(
        "joint=0 row=2 weld=1",
        &[
            "Dent has no link or column row; it has: joint, station",
            "Dent has no link or column weld; it has: joint, station",
        ],
    );
    told("joint=0 station=1 joint=0", &["joint stands twice; expected each name once"]);
    let number = "expected a whole number from 0 to 4294967295";
    told("joint=0 station=", &[&format!("station is empty; {number}")]);
    told("joint=0 station=6.5", &[&format!("station is `6.5`; {number}")]);
    told("joint=0 station=4294967296", &[&format!("station is `4294967296`; {number}")]);
    assert_eq!(folder.files(), before);
    folder
        .sheet("pack row vendor.schema Dnet joint=0")
        .bad("the new row of Dnet: no node is named `Dnet`; the nodes: Dent, Joint, Loss\n");
}

#[test]
fn words_of_a_row_without_links_and_columns() {
    let folder = Folder::with_example("row-without-words", "base");
    folder
        .sheet(&format!("add-row {MAPPED} run Joint joint=0"))
        .bad("the new row of Joint: Joint has no link or column joint; it has: none\n");
    folder
        .sheet(&format!("add-row {MAPPED} run Joint 0"))
        .bad("the new row of Joint: `0`; expected nothing\n");
    // The run is judged before the words are read.
    folder.write("run/Loss.csv", "row,joint,station\n0,2,705\n");
    let ran = folder.sheet(&format!("add-row {MAPPED} run Joint 0"));
    assert!(ran.err().starts_with("run/Loss.csv row 0: joint 2, but Joint has 2 rows (9, "));
}
