//! The command line: exit status, standard output and error, help, and files.

mod common;

use common::{command, hex, names_in, Folder, MAPPED};
use std::fs;
use std::process::Stdio;

#[test]
fn bad_usage_has_status_2_and_points_to_the_help() {
    let folder = Folder::with_example("usage", "base");
    let names = "pack, show, check, delta, sigma, pi, query, compose, add-row, withdraw-row, \
                 match, turn, first-path, same-path, why, draw, version or help";
    let told = |line: &str, what: &str, see: &str| {
        folder.sheet(line).bad(&format!("sheet: {what}\nsee `sheet help{see}`\n"));
    };
    told("", "expected a command", "");
    told("push", &format!("no command is named `push`; expected {names}"), "");
    told("help push", &format!("no command is named `push`; expected {names}"), "");
    told("--fast pack", "no option is named `--fast`", "");
    told(
        "pack",
        "expected `sheet pack schema|mapping|instance|matching|path|row` and what to read",
        " pack",
    );
    told("check path", "expected `sheet check schema|mapping|instance` and what to read", " check");
    told("pack schema", "expected SCHEMA; 0 given", " pack");
    told("sigma vendor.schema", "expected S T MAPPING RUN; 1 given", " sigma");
    told("match raw a b", "expected S T MAPPING RUN BOOK LIST; 2 given", " match");
    told("pack path vendor.schema", "expected SCHEMA PATH; 1 given", " pack");
    told("show matching vendor.schema", "expected SCHEMA INSTANCE LIST; 1 given", " show");
    told("check schema vendor.schema --hex", "check takes no --hex", " check");
    for line in [
        "show schema vendor.schema -o a.sheet",
        "show instance vendor.schema run -o a.sheet",
        "show matching vendor.schema run raw.csv -o sheet:-",
    ] {
        told(line, "show writes text; pack writes sheets", " show");
    }
    told("sigma --tray many", "--tray many; expected a number of bytes", "");
    told("sigma -o", "expected a file or folder after -o", "");
    told("sigma --force=yes", "--force takes no value", "");
    told("first-path vendor.schema", "expected SCHEMA PATH; 1 given", " first-path");
    told("first-path vendor.schema Dent --hex", "first-path takes no --hex", " first-path");
    told("first-path - sheet:-", "standard input can be lent only once", " first-path");
    told("same-path vendor.schema Dent", "expected SCHEMA PATH PATH; 2 given", " same-path");
    told("same-path vendor.schema Dent Dent -o a", "same-path takes no --output", " same-path");
    told("same-path - sheet:- A", "standard input can be lent only once", " same-path");
    told("why vendor.schema Dent", "expected SCHEMA PATH PATH; 2 given", " why");
    told("why vendor.schema Dent Dent --tray 1", "why takes no --tray", " why");
    told("why vendor.schema sheet:- sheet:-", "standard input can be lent only once", " why");
    told("check instance - -", "standard input can be lent only once", " check");
    told("pack row vendor.schema", "expected SCHEMA TABLE NAME=VALUE ..; 1 given", " pack");
}

#[test]
fn bad_usage_of_changes() {
    let folder = Folder::with_example("usage-changes", "base");
    let told = |line: &str, what: &str, see: &str| {
        folder.sheet(line).bad(&format!("sheet: {what}\nsee `sheet help{see}`\n"));
    };
    let add = "expected S T MAPPING RUN TABLE NAME=VALUE ..";
    told("add-row", &format!("{add}; 0 given"), " add-row");
    told(&format!("add-row {MAPPED} run"), &format!("{add}; 4 given"), " add-row");
    let withdraw = "expected S T MAPPING RUN TABLE ROW";
    told(
        &format!("withdraw-row {MAPPED} run Dent"),
        &format!("{withdraw}; 5 given"),
        " withdraw-row",
    );
    told(
        &format!("withdraw-row {MAPPED} run Dent 0 1"),
        &format!("{withdraw}; 7 given"),
        " withdraw-row",
    );
    told(&format!("add-row {MAPPED} run Joint --hex"), "add-row takes no --hex", " add-row");
    told(&format!("sigma {MAPPED} run --pushed a"), "sigma takes no --pushed", " sigma");
    told(
        &format!("add-row {MAPPED} run Joint --pushed"),
        "expected a file or folder after --pushed",
        "",
    );
    let once = "standard input can be lent only once";
    told("withdraw-row - - vendor-to-operator.mapping run Dent 0", once, " withdraw-row");
    folder.sheet("pack instance vendor.schema run -o run.sheet").silent();
    let line = format!("add-row {MAPPED} - Dent sheet:-");
    let words: Vec<&str> = line.split(' ').collect();
    let ran = folder.run(&words, &folder.read("run.sheet"));
    ran.bad(&format!("sheet: {once}\nsee `sheet help`\n"));
}

#[test]
fn help_goes_to_standard_output() {
    let folder = Folder::new("help");
    let overview = folder.sheet("help");
    assert_eq!((overview.status(), overview.err().as_str()), (0, ""));
    for ask in ["--help", "-h", "help help"] {
        folder.sheet(ask).printed(&overview.out());
    }
    let commands = [
        "pack",
        "show",
        "check",
        "delta",
        "sigma",
        "pi",
        "query",
        "compose",
        "add-row",
        "withdraw-row",
        "match",
        "turn",
        "first-path",
        "same-path",
        "why",
        "draw",
    ];
    for name in commands {
        assert!(overview.out().contains(&format!("\n  sheet {name} ")), "{name}");
        let help = folder.sheet(&format!("help {name}"));
        assert!(help.out().starts_with(&format!("sheet {name} ")), "{name}");
        assert!(help.out().contains("\nExample: sheet "), "{name}");
        help.printed(&help.out());
        folder.sheet(&format!("{name} --help")).printed(&help.out());
    }
    for line in overview.out().lines() {
        assert!(line.chars().count() <= 80, "{line}");
    }
    folder.sheet("--version").printed(&folder.sheet("version").out());
}

#[test]
fn existing_files_are_kept_without_force() {
    let folder = Folder::with_example("force-file", "base");
    folder.write("out.sheet", "precious");
    folder
        .sheet("pack schema vendor.schema -o out.sheet")
        .bad("sheet: out.sheet exists; --force replaces it\n");
    assert_eq!(folder.read("out.sheet"), b"precious");
    folder.sheet("pack schema vendor.schema -o out.sheet --force").silent();
    assert_eq!(folder.read("out.sheet"), hex("18 42 00 04 84 04 84"));
    folder.write("out.csv", "precious");
    let turn = format!("turn pushed-to-raw {MAPPED} run book pushed.csv -o out.csv");
    folder.sheet(&turn).bad("sheet: out.csv exists; --force replaces it\n");
    assert_eq!(folder.read("out.csv"), b"precious");
    folder.sheet(&format!("{turn} --force")).silent();
    assert_eq!(folder.read("out.csv"), folder.read("raw.csv"));
    folder
        .sheet("pack schema vendor.schema -o run --force")
        .bad("sheet: run is a folder; expected a file\n");
}

#[test]
fn existing_folders_are_kept_without_force_and_with_other_files() {
    let folder = Folder::with_example("force-folder", "base");
    let sigma = format!("sigma {MAPPED} run -o pushed");
    folder.sheet(&sigma).silent();
    assert_eq!(names_in(&folder.join("pushed")), ["Anomaly.csv", "Joint.csv"]);
    folder.write("pushed/Anomaly.csv", "row,joint,station\n");
    folder.sheet(&sigma).bad("sheet: pushed exists; --force replaces it\n");
    assert_eq!(folder.read("pushed/Anomaly.csv"), b"row,joint,station\n");
    folder.write("pushed/notes.txt", "precious");
    folder
        .sheet(&format!("{sigma} --force"))
        .bad("sheet: pushed also holds notes.txt, which would be lost; not replaced\n");
    assert_eq!(folder.read("pushed/Anomaly.csv"), b"row,joint,station\n");
    fs::remove_file(folder.join("pushed/notes.txt")).unwrap();
    folder.sheet(&format!("{sigma} --force")).silent();
    assert!(folder.read("pushed/Anomaly.csv").ends_with(b"2,1,705\n"));
    assert!(folder.names().iter().all(|name| !name.starts_with('.')), "{:?}", folder.names());
    folder.sheet(&format!("sigma {MAPPED} run -o raw.csv")).bad(
        "sheet: an instance has several tables; name a folder, or a file ending in .sheet\nsee `sheet help sigma`\n",
    );
    folder
        .sheet(&format!("sigma {MAPPED} run -o vendor.schema --force"))
        .bad("sheet: vendor.schema is a file; expected a folder\n");
}

#[test]
fn nothing_is_written_when_something_is_wrong() {
    let folder = Folder::with_example("nothing-written", "base");
    let before = folder.names();
    let run_before = folder.read("run/Dent.csv");
    // Refused, bad text, bad usage, and a folder that is not there.
    folder.write("run/Dent.csv", "row,joint,station\n0,9,700\n");
    assert_eq!(folder.sheet(&format!("sigma {MAPPED} run -o out")).status(), 1);
    assert_eq!(folder.sheet(&format!("sigma {MAPPED} run -o out.sheet")).status(), 1);
    assert_eq!(folder.sheet("pack instance vendor.schema run -o out.sheet").status(), 1);
    folder.write("run/Dent.csv", "row,joint,station\n0,1,-700\n");
    assert_eq!(folder.sheet(&format!("sigma {MAPPED} run -o out")).status(), 2);
    assert_eq!(folder.sheet("show instance vendor.schema run -o out").status(), 2);
    folder.write("run/Dent.csv", &run_before);
    let ran = folder.sheet(&format!("sigma {MAPPED} run -o no/where"));
    assert!(ran.err().starts_with("sheet: cannot write no/where: "), "{}", ran.err());
    assert_eq!(ran.status(), 2);
    assert_eq!(folder.sheet("pack schema vendor.schema -o no/out.sheet").status(), 2);
    assert_eq!(folder.sheet(&format!("sigma {MAPPED} run -o out -o ..")).status(), 2);
    assert_eq!(folder.names(), before);
    let missing = folder.sheet("pack schema nowhere.schema");
    assert!(missing.err().starts_with("sheet: cannot read nowhere.schema: "), "{}", missing.err());
    assert_eq!((missing.status(), missing.out().as_str()), (2, ""));
}

#[test]
fn unchecked_packing_takes_what_the_check_refuses() {
    let folder = Folder::new("unchecked");
    folder.write("ring.schema", "node A\nnode B\nlink A.b -> B\nlink B.a -> A\n");
    assert_eq!(folder.sheet("pack schema ring.schema -o ring.sheet").status(), 1);
    assert!(!folder.join("ring.sheet").exists());
    folder.sheet("pack --unchecked schema ring.schema -o ring.sheet").silent();
    assert_eq!(folder.read("ring.sheet"), hex("10 40 00 04 40"));
    assert_eq!(folder.sheet("check schema ring.sheet").status(), 1);
}

#[test]
fn words_may_have_blanks_and_begin_with_a_hyphen_after_two() {
    let folder = Folder::with_example("blanks", "base");
    folder.write("my schema.txt", folder.read("vendor.schema"));
    folder.write("-odd.schema", folder.read("vendor.schema"));
    let expected = "18 42 00 04 84 04 84\n";
    folder.run(&["pack", "--hex", "schema", "my schema.txt"], b"").printed(expected);
    folder.run(&["pack", "--hex", "--", "schema", "-odd.schema"], b"").printed(expected);
    let text = folder.read("vendor.schema");
    folder.run(&["pack", "--hex", "schema", "text:-"], &text).printed(expected);
    folder.run(&["show", "schema", "-"], &hex("08 00 00")).printed("node node0\n");
}

#[test]
fn a_closed_pipe_is_no_panic() {
    let folder = Folder::with_example("closed-pipe", "book");
    let lines = [
        format!("sigma {MAPPED} run"),
        format!("turn pushed-to-raw {MAPPED} run book pushed.csv"),
        "help".to_string(),
    ];
    for line in lines {
        let (reader, writer) = std::io::pipe().unwrap();
        drop(reader);
        let mut closed = command(folder.path());
        closed.args(line.split_whitespace()).stdin(Stdio::null()).stdout(writer);
        let ran = common::Ran(closed.output().unwrap());
        assert_eq!((ran.err().as_str(), ran.status()), ("", 0), "{line}");
    }
    // Neither is a closed standard error.
    let (reader, writer) = std::io::pipe().unwrap();
    drop(reader);
    let mut closed = command(folder.path());
    let ran =
        common::Ran(closed.arg("nonsense").stdin(Stdio::null()).stderr(writer).output().unwrap());
    assert_eq!(ran.status(), 2);
}

#[cfg(target_os = "linux")]
#[test]
fn a_full_disk_is_told() {
    let folder = Folder::with_example("full-disk", "base");
    let full = fs::OpenOptions::new().write(true).open("/dev/full").unwrap();
    let mut child = command(folder.path());
    child.args(["pack", "schema", "vendor.schema"]).stdout(full);
    let ran = common::Ran(child.output().unwrap());
    assert!(ran.err().starts_with("sheet: cannot write standard output: "), "{}", ran.err());
    assert_eq!(ran.status(), 2);
}
