//! Document 01's base example: the files' sheets are the paper's bytes.

mod common;

use common::{hex, Folder, MAPPED};

const S: &str = "18 42 00 04 84 04 84";
const T: &str = "10 21 00 04 04";
const F: &str = "01 01 00 80 00";
const RUN: &str = "00 80 20 04 02 00 00 80 00 01 5E 00 00 00 96 00 00 01 60 80";
const PUSHED_RUN: &str = "00 C0 20 08 00 02 00 00 05 78 00 00 02 58 00 00 05 82";

fn packed(folder: &Folder, line: &str) -> Vec<u8> {
    let ran = folder.sheet(line);
    assert_eq!((ran.err().as_str(), ran.status()), ("", 0));
    ran.0.stdout
}

#[test]
fn the_files_are_the_papers_sheets() {
    let folder = Folder::with_example("base-sheets", "base");
    assert_eq!(packed(&folder, "pack schema vendor.schema"), hex(S));
    assert_eq!(packed(&folder, "pack schema operator.schema"), hex(T));
    assert_eq!(packed(&folder, &format!("pack mapping {MAPPED}")), hex(F));
    assert_eq!(packed(&folder, "pack instance vendor.schema run"), hex(RUN));
    folder.sheet("pack --hex instance vendor.schema run").printed(&format!("{RUN}\n"));
}

#[test]
fn case_1_sigma_of_the_run() {
    let folder = Folder::with_example("base-case-1", "base");
    let sheet = packed(&folder, &format!("sigma {MAPPED} run -o sheet:-"));
    assert_eq!(sheet, hex(PUSHED_RUN));
    folder.sheet(&format!("sigma {MAPPED} run")).printed(
        "Anomaly, 3 rows
  row  joint  station
    0      1      700
    1      0      300
    2      1      705

Joint, 2 rows
  row
    0
    1
",
    );
}

#[test]
fn case_2_delta_of_case_1() {
    let folder = Folder::with_example("base-case-2", "base");
    folder.sheet(&format!("sigma {MAPPED} run -o pushed.sheet")).silent();
    assert_eq!(folder.read("pushed.sheet"), hex(PUSHED_RUN));
    folder.sheet(&format!("delta {MAPPED} pushed.sheet -o back")).silent();
    assert_eq!(folder.read("back/Dent.csv"), b"row,joint,station\n0,1,700\n1,0,300\n2,1,705\n");
    assert_eq!(folder.read("back/Joint.csv"), b"row\n0\n1\n");
    assert_eq!(folder.read("back/Loss.csv"), folder.read("back/Dent.csv"));
    folder
        .sheet("check instance vendor.schema back")
        .printed("accepted: rows 8 (Dent 3, Joint 2, Loss 3)\n");
}

#[test]
fn case_3_both_matchings_and_their_turning() {
    let folder = Folder::with_example("base-case-3", "base");
    // 2 0 1 0 1 and 2 0 0 1 1 in 9 bits each.
    let pushed = packed(&folder, "pack matching operator.schema pushed.csv");
    assert_eq!(pushed, hex("01 00 00 20 00 08"));
    let raw = packed(&folder, "pack matching vendor.schema raw.csv");
    assert_eq!(raw, hex("01 00 00 00 10 08"));
    let lent = format!("{MAPPED} run book");
    folder
        .sheet(&format!("match pushed {lent} pushed.csv"))
        .printed("accepted: a matching of 5 rows, from the pushed run to the book\n");
    folder
        .sheet(&format!("match raw {lent} raw.csv"))
        .printed("accepted: a matching of 5 rows, from the run to the pulled back book\n");
    let turned = folder.sheet(&format!("turn pushed-to-raw {lent} pushed.csv"));
    turned.printed(&String::from_utf8(folder.read("raw.csv")).unwrap());
    let back = folder.sheet(&format!("turn raw-to-pushed {lent} raw.csv"));
    back.printed(&String::from_utf8(folder.read("pushed.csv")).unwrap());
    let sheet = packed(&folder, &format!("turn pushed-to-raw {lent} pushed.csv -o sheet:-"));
    assert_eq!(sheet, raw);
}

#[test]
fn sheets_and_texts_may_be_mixed() {
    let folder = Folder::with_example("base-mixed", "base");
    folder.sheet("pack schema vendor.schema -o vendor.sheet").silent();
    folder.sheet("pack schema operator.schema -o operator.sheet").silent();
    folder.sheet(&format!("pack mapping {MAPPED} -o mapping.sheet")).silent();
    folder.sheet("pack instance vendor.schema run -o run.sheet").silent();
    let sheets = "vendor.sheet operator.sheet mapping.sheet run.sheet";
    assert_eq!(packed(&folder, &format!("sigma {sheets} -o sheet:-")), hex(PUSHED_RUN));
    let mixed = "vendor.schema operator.sheet mapping.sheet run";
    assert_eq!(packed(&folder, &format!("sigma {mixed} -o sheet:-")), hex(PUSHED_RUN));
    let words: Vec<&str> = mixed.split(' ').collect();
    let line = [&["sigma"], &words[..3], &["-", "-o", "sheet:-"]].concat();
    let ran = folder.run(&line, &hex(RUN));
    assert_eq!((ran.0.stdout.clone(), ran.err()), (hex(PUSHED_RUN), String::new()));
    // A schema sheet has no names.
    folder.sheet("show instance vendor.sheet run.sheet -o nameless").silent();
    assert_eq!(folder.read("nameless/node0.csv"), b"row,link0,column0\n0,1,700\n1,0,300\n");
}

#[test]
fn sheets_are_shown_as_the_texts_they_came_from() {
    let folder = Folder::with_example("base-shown", "base");
    folder.sheet(&format!("pack mapping {MAPPED} -o mapping.sheet")).silent();
    folder.sheet("pack instance vendor.schema run -o run.sheet").silent();
    folder.sheet("pack matching vendor.schema raw.csv -o raw.sheet").silent();
    folder.sheet("pack path vendor.schema Dent.joint -o path.sheet").silent();
    let mapping = folder.sheet("show mapping vendor.schema operator.schema mapping.sheet");
    let text = String::from_utf8(folder.read("vendor-to-operator.mapping")).unwrap();
    let facts: String = text.lines().skip(2).map(|line| format!("{line}\n")).collect();
    mapping.printed(&facts);
    folder.sheet("show instance vendor.schema run.sheet -o again").silent();
    for table in ["Dent", "Joint", "Loss"] {
        let name = format!("{table}.csv");
        let file = |folder_name: &str| folder.read(&format!("{folder_name}/{name}"));
        assert_eq!(file("again"), file("run"));
    }
    let raw = folder.sheet("show matching vendor.schema run raw.sheet");
    raw.printed(&String::from_utf8(folder.read("raw.csv")).unwrap());
    folder.sheet("show path vendor.schema sheet:path.sheet").printed("Dent.joint\n");
    folder.sheet("pack schema vendor.schema -o vendor.sheet").silent();
    folder.sheet("show schema vendor.sheet").printed(
        "node node0
node node1
node node2

link node0.link0 -> node1
link node2.link1 -> node1

column node0.column0 : station
column node2.column1 : station
",
    );
}

#[test]
fn the_checks_tell_what_they_accepted() {
    let folder = Folder::with_example("base-checks", "base");
    folder
        .sheet("check schema vendor.schema")
        .printed("accepted: nodes 3, links 2, columns 2, equations 0, paths 5\n");
    folder
        .sheet("check instance vendor.schema run")
        .printed("accepted: rows 5 (Dent 2, Joint 2, Loss 1)\n");
    folder.sheet(&format!("check mapping {MAPPED}")).printed(
        "accepted
sigma, match and turn: taken
pi: not taken (13, unpaired)
  vendor-to-operator.mapping line 11: Dent.station and Loss.station both go to Anomaly.station
",
    );
}

#[test]
fn drawings_are_graphviz_text() {
    let folder = Folder::with_example("base-drawn", "base");
    let schema = folder.sheet("draw schema vendor.schema");
    assert_eq!((schema.status(), schema.err()), (0, String::new()));
    for part in ["digraph schema {", "<b>Dent</b>", "n0 -> n1 [label=\"joint\"];"] {
        assert!(schema.out().contains(part), "{part}");
    }
    let mapping = folder.sheet(&format!("draw mapping {MAPPED}"));
    assert_eq!((mapping.status(), mapping.err()), (0, String::new()));
    for part in ["label=\"vendor.schema\"", "s0 -> t0 [style=dashed", "joint\\n→ Anomaly.joint"] {
        assert!(mapping.out().contains(part), "{part}");
    }
    folder.sheet("draw schema vendor.schema -o vendor.dot").silent();
    assert_eq!(folder.read("vendor.dot"), schema.out().into_bytes());
}
