//! Rows that come and go: what is told, what is written in which file, and that the
//! pushed tables are those that Sigma gives of the changed run.

mod common;

use common::{command, hex, lines, names_in, Folder, Ran, MAPPED};
use std::process::Stdio;

/// The base example's run with a third dent, at joint 0 and station 650, and what
/// Sigma gives of it.
const LONGER: &str = "00 C0 20 04 02 00 00 00 40 00 00 AF 00 00 00 4B 00 00 00 A2 80 00 00 B0 40";
const PUSHED_LONGER: &str = "01 00 20 08 00 00 01 00 00 02 BC 00 00 01 2C 00 00 02 8A 00 00 02 C1";

/// The base example's run without its first dent, and what Sigma gives of it.
const SHORTER: &str = "00 40 20 04 00 01 00 00 01 2C 00 00 02 C1";
const PUSHED_SHORTER: &str = "00 80 20 00 04 00 00 04 B0 00 00 0B 04";

/// The tables that are printed after the third dent has come.
const PUSHED_TABLES: &str = "Anomaly, 4 rows
  row  joint  station
    0      1      700
    1      0      300
    2      0      650
    3      1      705

Joint, 2 rows
  row
    0
    1
";

fn text(folder: &Folder, name: &str) -> String {
    String::from_utf8(folder.read(name)).unwrap()
}

/// The files of two folders are the same, byte for byte.
fn same_files(folder: &Folder, first: &str, second: &str) {
    assert_eq!(names_in(&folder.join(first)), names_in(&folder.join(second)));
    for name in names_in(&folder.join(first)) {
        let file = |of: &str| folder.read(&format!("{of}/{name}"));
        assert_eq!(file(first), file(second), "{name}");
    }
}

#[test]
fn a_dent_is_added_to_a_folder() {
    let folder = Folder::with_example("rows-add", "base");
    let before = folder.files();
    folder
        .sheet(&format!("add-row {MAPPED} run Dent joint=0 station=650 -o longer --pushed pushed"))
        .printed("Dent 2 is new\n");
    assert_eq!(names_in(&folder.join("longer")), ["Dent.csv", "Joint.csv", "Loss.csv"]);
    assert_eq!(text(&folder, "longer/Dent.csv"), "row,joint,station\n0,1,700\n1,0,300\n2,0,650\n");
    assert_eq!(folder.read("longer/Joint.csv"), folder.read("run/Joint.csv"));
    assert_eq!(folder.read("longer/Loss.csv"), folder.read("run/Loss.csv"));
    assert_eq!(names_in(&folder.join("pushed")), ["Anomaly.csv", "Joint.csv"]);
    assert_eq!(
        text(&folder, "pushed/Anomaly.csv"),
        "row,joint,station\n0,1,700\n1,0,300\n2,0,650\n3,1,705\n"
    );
    folder.sheet(&format!("sigma {MAPPED} longer -o fresh")).silent();
    same_files(&folder, "pushed", "fresh");
    // All that stood there stands there as it was.
    let after = folder.files();
    assert!(before.iter().all(|file| after.contains(file)));
    assert_eq!(after.len(), before.len() + 4 + 3 + 3);
}

#[test]
fn a_dent_is_withdrawn_from_a_folder() {
    let folder = Folder::with_example("rows-withdraw", "base");
    let before = folder.files();
    folder
        .sheet(&format!("withdraw-row {MAPPED} run Dent 0 -o shorter --pushed pushed"))
        .printed("Dent 1 is now 0\n");
    assert_eq!(text(&folder, "shorter/Dent.csv"), "row,joint,station\n0,0,300\n");
    assert_eq!(folder.read("shorter/Joint.csv"), folder.read("run/Joint.csv"));
    assert_eq!(folder.read("shorter/Loss.csv"), folder.read("run/Loss.csv"));
    assert_eq!(text(&folder, "pushed/Anomaly.csv"), "row,joint,station\n0,0,300\n1,1,705\n");
    folder.sheet(&format!("sigma {MAPPED} shorter -o fresh")).silent();
    same_files(&folder, "pushed", "fresh");
    let after = folder.files();
    assert!(before.iter().all(|file| after.contains(file)));
    assert_eq!(after.len(), before.len() + 4 + 3 + 3);
}

#[test]
fn sheets_change_as_folders_do() {
    let folder = Folder::with_example("rows-sheets", "base");
    folder.sheet("pack instance vendor.schema run -o run.sheet").silent();
    folder
        .sheet(&format!(
            "add-row {MAPPED} run.sheet Dent joint=0 station=650 -o longer.sheet --pushed pushed.sheet"
        ))
        .printed("Dent 2 is new\n");
    assert_eq!(folder.read("longer.sheet"), hex(LONGER));
    assert_eq!(folder.read("pushed.sheet"), hex(PUSHED_LONGER));
    folder
        .sheet(&format!("withdraw-row {MAPPED} run.sheet Dent 0 -o s.sheet --pushed p.sheet"))
        .printed("Dent 1 is now 0\n");
    assert_eq!(folder.read("s.sheet"), hex(SHORTER));
    assert_eq!(folder.read("p.sheet"), hex(PUSHED_SHORTER));
    // From the one form to the other, and with schemas that have no names.
    folder.sheet("pack schema vendor.schema -o vendor.sheet").silent();
    folder.sheet("pack schema operator.schema -o operator.sheet").silent();
    folder.sheet(&format!("pack mapping {MAPPED} -o mapping.sheet")).silent();
    folder
        .sheet("add-row vendor.sheet operator.sheet mapping.sheet run.sheet node0 column0=650 link0=0 -o nameless --pushed sheet:named")
        .printed("node0 2 is new\n");
    assert_eq!(names_in(&folder.join("nameless")), ["node0.csv", "node1.csv", "node2.csv"]);
    assert_eq!(folder.read("named"), hex(PUSHED_LONGER));
}

#[test]
fn a_row_may_be_a_sheet() {
    let folder = Folder::with_example("rows-row-sheet", "base");
    folder
        .sheet("pack --hex row vendor.schema Dent station=650 joint=0")
        .printed("00 00 00 01 45 00\n");
    folder.sheet("pack row vendor.schema Dent joint=0 station=650 -o dent.row").silent();
    folder
        .sheet(&format!("add-row {MAPPED} run Dent sheet:dent.row"))
        .printed(&format!("Dent 2 is new\n\n{PUSHED_TABLES}"));
    // A joint has neither links nor columns.
    folder.sheet("pack --hex row vendor.schema Joint").printed("\n");
    folder.sheet(&format!("add-row {MAPPED} run Joint -o -")).printed(
        "Joint 2 is new

Dent, 2 rows
  row  joint  station
    0      1      700
    1      0      300

Joint, 3 rows
  row
    0
    1
    2

Loss, 1 row
  row  joint  station
    0      1      705
",
    );
}

/// Rows behind the one that goes, and the links to them, of two links to one table.
#[test]
fn what_has_moved_is_told() {
    let folder = Folder::new("rows-moved");
    let schema = ["node A", "node B", "link A.b -> B", "link A.c -> B", "column B.x : plain"];
    folder.write("s.schema", lines(&schema));
    let images = ["A -> A", "B -> B", "A.b -> A.b", "A.c -> A.c", "B.x -> B.x"];
    folder.write("same.mapping", lines(&images));
    folder.write("run/B.csv", "row,x\n0,10\n1,11\n2,12\n3,13\n4,14\n");
    folder.write("run/A.csv", "row,b,c\n0,0,4\n1,2,0\n2,3,0\n3,4,3\n4,0,0\n5,2,0\n");
    let change = |words: &str| folder.sheet(&format!("{words} -o changed --pushed p --force"));
    let lent = "s.schema s.schema same.mapping run";
    change(&format!("withdraw-row {lent} A 1")).printed("A 2 to 5 are now 1 to 4\n");
    change(&format!("withdraw-row {lent} A 4")).printed("A 5 is now 4\n");
    change(&format!("withdraw-row {lent} A 5")).printed("A 5 was the last row: no row has moved\n");
    change(&format!("withdraw-row {lent} B 1")).printed(
        "B 2 to 4 are now 1 to 3\nrenumbered with them: A.b of rows 1 to 3, 5; A.c of rows 0, 3\n",
    );
    assert_eq!(text(&folder, "changed/B.csv"), "row,x\n0,10\n1,12\n2,13\n3,14\n");
    assert_eq!(
        text(&folder, "changed/A.csv"),
        "row,b,c\n0,0,3\n1,1,0\n2,2,0\n3,3,2\n4,0,0\n5,1,0\n"
    );
    folder.write("run/A.csv", "row,b,c\n0,4,0\n");
    change(&format!("withdraw-row {lent} B 3"))
        .printed("B 4 is now 3\nrenumbered with it: A.b of row 0\n");
    change(&format!("withdraw-row {lent} B 2"))
        .printed("B 3 to 4 are now 2 to 3\nrenumbered with them: A.b of row 0\n");
    folder.write("run/A.csv", "row,b,c\n0,0,0\n");
    change(&format!("withdraw-row {lent} B 3")).printed("B 4 is now 3\n");
    change(&format!("withdraw-row {lent} A 0")).printed("A 0 was the last row: no row has moved\n");
    assert_eq!(text(&folder, "changed/A.csv"), "row,b,c\n");
    change(&format!("add-row {lent} B x=15")).printed("B 5 is new\n");
}

#[test]
fn a_run_changes_in_its_place() {
    let folder = Folder::with_example("rows-in-place", "base");
    let before = folder.files();
    let in_place = "-o run --pushed pushed --force";
    let changes = [
        ("add-row", "Dent joint=0 station=650", "Dent 2 is new\n"),
        ("withdraw-row", "Dent 1", "Dent 2 is now 1\n"),
        ("withdraw-row", "Dent 1", "Dent 1 was the last row: no row has moved\n"),
        (
            "withdraw-row",
            "Joint 0",
            "Joint 1 is now 0\nrenumbered with it: Dent.joint of row 0; Loss.joint of row 0\n",
        ),
        ("add-row", "Joint", "Joint 1 is new\n"),
        ("add-row", "Loss station=1 joint=1", "Loss 1 is new\n"),
    ];
    for (command, words, told) in changes {
        folder.sheet(&format!("{command} {MAPPED} run {words} {in_place}")).printed(told);
        folder.sheet(&format!("sigma {MAPPED} run -o fresh --force")).silent();
        same_files(&folder, "pushed", "fresh");
    }
    assert_eq!(text(&folder, "run/Dent.csv"), "row,joint,station\n0,0,700\n");
    assert_eq!(text(&folder, "run/Loss.csv"), "row,joint,station\n0,0,705\n1,1,1\n");
    assert!(folder.files().iter().all(|(name, _)| !name.contains("/.") && !name.starts_with('.')));
    assert_eq!(folder.files().len(), before.len() + 3 + 3);
}

#[test]
fn a_row_that_came_and_went_leaves_the_files_as_they_were() {
    let folder = Folder::with_example("rows-and-back", "book");
    folder.sheet(&format!("sigma {MAPPED} run -o pushed")).silent();
    let before = folder.files();
    let loss = "Metal_Loss spool=3 weld=3 station=84290000 clock=720 depth=120 length=30 width=18";
    let in_place = "-o run --pushed pushed --force";
    folder
        .sheet(&format!("add-row {MAPPED} run {loss} {in_place}"))
        .printed("Metal_Loss 58 is new\n");
    assert_ne!(folder.files(), before);
    assert!(text(&folder, "run/Metal_Loss.csv").ends_with("\n58,3,3,84290000,720,120,30,18\n"));
    // The weld that its spool begins at is its reference, as it is of a loss before.
    let row = "\n79,3,3,84290000,720,120,30,18\n";
    assert!(text(&folder, "pushed/Anomaly.csv").ends_with(row));
    folder
        .sheet(&format!("withdraw-row {MAPPED} run Metal_Loss 58 {in_place}"))
        .printed("Metal_Loss 58 was the last row: no row has moved\n");
    assert_eq!(folder.files(), before);
    folder
        .sheet(&format!("withdraw-row {MAPPED} run Dent 3 {in_place}"))
        .printed("Dent 4 to 20 are now 3 to 19\n");
}

/// Without `-o` and `--pushed` nothing is written, and the pushed tables are printed;
/// standard output may have the run in their place, and either of them as a sheet.
#[test]
fn standard_output_has_one_of_the_two_results() {
    let folder = Folder::with_example("rows-printed", "base");
    let before = folder.files();
    let add = format!("add-row {MAPPED} run Dent joint=0 station=650");
    for words in ["", " --pushed -", " --pushed text:-"] {
        let expected = format!("Dent 2 is new\n\n{PUSHED_TABLES}");
        folder.sheet(&format!("{add}{words}")).printed(&expected);
    }
    let run = folder.sheet(&format!("{add} -o -"));
    assert!(run.out().starts_with("Dent 2 is new\n\nDent, 3 rows\n"), "{}", run.out());
    assert!(!run.out().contains("Anomaly"));
    assert_eq!(folder.sheet(&format!("{add} -o sheet:-")).0.stdout, hex(LONGER));
    assert_eq!(folder.sheet(&format!("{add} --pushed sheet:-")).0.stdout, hex(PUSHED_LONGER));
    assert_eq!(folder.files(), before);
    let told = |words: &str, what: &str| {
        folder
            .sheet(&format!("{add} {words}"))
            .bad(&format!("sheet: {what}\nsee `sheet help add-row`\n"));
        assert_eq!(folder.files(), before);
    };
    let own = "the run and the pushed tables need places of their own";
    told("-o - --pushed sheet:-", own);
    told("-o sheet:- --pushed -", own);
    told("-o both --pushed both", own);
    told("-o both --pushed sheet:both", own);
    let several = "an instance has several tables; name a folder, or a file ending in .sheet";
    told("-o run.csv", several);
    told("-o longer --pushed pushed.csv", several);
    // One change after the other.
    let first = folder.sheet(&format!("{add} -o sheet:-")).0.stdout;
    let words = format!("withdraw-row {MAPPED} - Dent 2 -o sheet:-");
    let words: Vec<&str> = words.split(' ').collect();
    folder.sheet("pack instance vendor.schema run -o run.sheet").silent();
    assert_eq!(folder.run(&words, &first).0.stdout, folder.read("run.sheet"));
}

#[test]
fn both_results_are_written_or_none() {
    let folder = Folder::with_example("rows-both", "base");
    folder.write("pushed.sheet", "precious");
    folder.write("kept/notes.txt", "precious");
    let before = folder.files();
    let add = format!("add-row {MAPPED} run Dent joint=0 station=650");
    let failed = |words: &str, told: &str| {
        let ran = folder.sheet(&format!("{add} {words}"));
        assert!(ran.err().starts_with(&format!("sheet: {told}")), "{}", ran.err());
        assert_eq!((ran.status(), ran.out().as_str()), (2, ""));
        assert_eq!(folder.files(), before, "{words}");
        assert_eq!(names_in(&folder.join("kept")), ["notes.txt"]);
    };
    failed("-o run", "run exists; --force replaces it\n");
    failed("-o run --pushed pushed", "run exists; --force replaces it\n");
    failed("-o longer --pushed pushed.sheet", "pushed.sheet exists; --force replaces it\n");
    failed(
        "-o run --pushed kept --force",
        "kept also holds notes.txt, which would be lost; not replaced\n",
    );
    failed("-o run --pushed no/where --force", "cannot write no/where: ");
    // The run has taken its place already when the pushed tables cannot.
    failed("-o run --pushed run/pushed --force", "cannot write run/pushed: ");
    failed("-o new --pushed ./new --force", "cannot write ./new: ");
    assert!(!folder.join("longer").exists() && !folder.join("new").exists());
}

/// Rows in any order, comments and other separators are read; what is written is in
/// order.
#[test]
fn a_run_as_a_spreadsheet_left_it() {
    let folder = Folder::with_example("rows-spreadsheet", "base");
    folder.write("run/Dent.csv", "\u{feff}station;joint;row\r\n300;0;1\r\n# later\r\n700;1;0\r\n");
    folder
        .sheet(&format!("withdraw-row {MAPPED} run Dent 0 -o run --pushed pushed.sheet --force"))
        .printed("Dent 1 is now 0\n");
    assert_eq!(text(&folder, "run/Dent.csv"), "row,joint,station\n0,0,300\n");
    assert_eq!(folder.read("pushed.sheet"), hex(PUSHED_SHORTER));
}

/// A closed pipe is no failure; where standard output cannot be written for another
/// reason, the files are as they were.
#[cfg(target_os = "linux")]
#[test]
fn what_cannot_be_told_is_not_written() {
    let folder = Folder::with_example("rows-untold", "base");
    folder.write("old.sheet", "precious");
    let before = folder.files();
    let add = format!("add-row {MAPPED} run Dent joint=0 station=650 --force");
    let places = ["-o run --pushed new", "-o new.sheet --pushed old.sheet"];
    for places in places {
        let full = std::fs::OpenOptions::new().write(true).open("/dev/full").unwrap();
        let ran = printing(&folder, &format!("{add} {places}"), full);
        assert!(ran.err().starts_with("sheet: cannot write standard output: "), "{}", ran.err());
        assert_eq!(ran.status(), 2);
        assert_eq!(folder.files(), before, "{places}");
    }
    for places in places.into_iter().rev() {
        let (reader, writer) = std::io::pipe().unwrap();
        drop(reader);
        let ran = printing(&folder, &format!("{add} {places}"), writer);
        assert_eq!((ran.err().as_str(), ran.status()), ("", 0));
    }
    assert_eq!(folder.read("new.sheet"), hex(LONGER));
    assert_eq!(folder.read("old.sheet"), hex(PUSHED_LONGER));
    assert!(text(&folder, "run/Dent.csv").ends_with("\n2,0,650\n"));
    assert!(text(&folder, "new/Anomaly.csv").ends_with("\n3,1,705\n"));
}

/// Runs the command with this as its standard output.
#[cfg(target_os = "linux")]
fn printing(folder: &Folder, line: &str, out: impl Into<Stdio>) -> Ran {
    let mut child = command(folder.path());
    child.args(line.split(' ')).stdin(Stdio::null()).stdout(out);
    Ran(child.output().unwrap())
}
