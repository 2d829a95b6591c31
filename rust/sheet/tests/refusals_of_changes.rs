//! What a change of a run is refused for: each refusal met by an example whose
//! message is compared, and after which every file is as it was.

mod common;

use common::{bare_rows, hex, Folder, MAPPED};

/// A change that shall be written to new places is refused with this message, and
/// nothing is written.
fn refused(folder: &Folder, line: &str, told: &str) {
    let before = folder.files();
    folder.sheet(&format!("{line} -o changed --pushed pushed")).refused(told);
    folder.sheet(&format!("{line} -o run --pushed pushed.sheet --force")).refused(told);
    folder.sheet(line).refused(told);
    assert_eq!(folder.files(), before);
}

/// A change that cannot be read, likewise.
fn bad(folder: &Folder, line: &str, told: &str) {
    let before = folder.files();
    folder.sheet(&format!("{line} -o run --pushed pushed --force")).bad(told);
    assert_eq!(folder.files(), before);
}

const ABSENT: &str = "the named table or row does not exist";

#[test]
fn refusal_18_absent_table() {
    let folder = Folder::with_example("change-18-table", "base");
    let told = |call: &str| {
        format!(
            "table Dnet: vendor.schema has no such table; its tables: Dent, Joint, Loss (18, absent)
{call} refused, place 0: {ABSENT}
mend: name one of these tables
"
        )
    };
    refused(&folder, &format!("withdraw-row {MAPPED} run Dnet 0"), &told("withdraw_row"));
    // Before the row is read.
    refused(&folder, &format!("add-row {MAPPED} run Dnet joint=x nonsense"), &told("add_row"));
    // A table of T is none of S.
    refused(
        &folder,
        &format!("add-row {MAPPED} run Anomaly joint=0 station=5"),
        &told("add_row").replace("Dnet", "Anomaly"),
    );
}

#[test]
fn refusal_18_absent_row() {
    let folder = Folder::with_example("change-18-row", "base");
    folder.write("run/Dent.csv", "row,joint,station\n0,1,700\n1,0,300\n2,0,310\n");
    let told = |place: &str, has: &str, mend: &str| {
        format!(
            "{place}: {has} (18, absent)
withdraw_row refused, place 0: {ABSENT}
mend: {mend}
"
        )
    };
    for row in ["3", "512", "4294967296", "18446744073709551615"] {
        let place = format!("run/Dent.csv row {row}");
        let told = told(&place, "Dent has rows 0 to 2", "name a row from 0 to 2");
        refused(&folder, &format!("withdraw-row {MAPPED} run Dent {row}"), &told);
    }
    refused(
        &folder,
        &format!("withdraw-row {MAPPED} run Loss 1"),
        &told("run/Loss.csv row 1", "Loss has row 0 alone", "name row 0"),
    );
    folder.write("run/Loss.csv", "row,joint,station\n");
    refused(
        &folder,
        &format!("withdraw-row {MAPPED} run Loss 0"),
        &told("run/Loss.csv row 0", "Loss has no rows", "name a table that has rows"),
    );
    folder.sheet("pack instance vendor.schema run -o packed.sheet").silent();
    refused(
        &folder,
        &format!("withdraw-row {MAPPED} packed.sheet Dent 3"),
        &told("packed.sheet, Dent row 3", "Dent has rows 0 to 2", "name a row from 0 to 2"),
    );
    for row in ["two", "+1", "1.0", "18446744073709551616"] {
        let what = format!("the row of Dent: is `{row}`; expected the number of a row\n");
        bad(&folder, &format!("withdraw-row {MAPPED} run Dent {row}"), &what);
    }
}

#[test]
fn refusal_19_still_held() {
    let folder = Folder::with_example("change-19", "base");
    refused(
        &folder,
        &format!("withdraw-row {MAPPED} run Joint 1"),
        "run/Dent.csv row 0: joint leads to Joint 1 (19, still held)
run/Loss.csv row 0: joint leads to Joint 1 (19, still held)
withdraw_row refused, place 0: a row to be withdrawn that another row links to
mend: withdraw the rows that lead to Joint 1 first, or let them lead to another row
",
    );
    let losses: String = (0..7).map(|row| format!("{row},{},70{row}\n", row % 2)).collect();
    folder.write("run/Loss.csv", format!("row,joint,station\n{losses}"));
    folder.sheet("pack instance vendor.schema run -o packed.sheet").silent();
    refused(
        &folder,
        &format!("withdraw-row {MAPPED} packed.sheet Joint 0"),
        "packed.sheet, Dent row 1: joint leads to Joint 0 (19, still held)
packed.sheet, Loss row 0: joint leads to Joint 0 (19, still held)
packed.sheet, Loss row 2: joint leads to Joint 0 (19, still held)
packed.sheet, Loss row 4: joint leads to Joint 0 (19, still held)
packed.sheet, Loss row 6: joint leads to Joint 0 (19, still held)
withdraw_row refused, place 0: a row to be withdrawn that another row links to
mend: withdraw the rows that lead to Joint 0 first, or let them lead to another row
",
    );
}

/// At most five causes are shown.
#[test]
fn refusal_19_still_held_by_many() {
    let folder = Folder::with_example("change-19-many", "base");
    folder.write("run/Dent.csv", "row,joint,station\n0,0,700\n1,0,300\n2,0,310\n3,1,311\n");
    let losses: String = (0..7).map(|row| format!("{row},{},70{row}\n", row % 2)).collect();
    folder.write("run/Loss.csv", format!("row,joint,station\n{losses}"));
    refused(
        &folder,
        &format!("withdraw-row {MAPPED} run Joint 0"),
        "run/Dent.csv row 0: joint leads to Joint 0 (19, still held)
run/Dent.csv row 1: joint leads to Joint 0 (19, still held)
run/Dent.csv row 2: joint leads to Joint 0 (19, still held)
run/Loss.csv row 0: joint leads to Joint 0 (19, still held)
run/Loss.csv row 2: joint leads to Joint 0 (19, still held)
and 2 more like these
withdraw_row refused, place 0: a row to be withdrawn that another row links to
mend: withdraw the rows that lead to Joint 0 first, or let them lead to another row
",
    );
}

#[test]
fn refusals_1_and_2_of_a_row_sheet() {
    let folder = Folder::with_example("change-row-sheet", "base");
    folder.write("cut.row", hex("00 00 00 00"));
    refused(
        &folder,
        &format!("add-row {MAPPED} run Dent sheet:cut.row"),
        "cut.row: the sheet ends after 4 bytes, inside Dent.station (1, cut)
add_row refused, place 0: the bits end before the last field does
mend: lend the whole sheet; or name the table that it was packed for
",
    );
    folder.write("bit.row", hex("00 00 00 01 45 01"));
    refused(
        &folder,
        &format!("add-row {MAPPED} run Dent sheet:bit.row"),
        "bit.row: byte 6 has a bit 1 after the last field (2, tail)
add_row refused, place 0: a filling bit is 1, or a byte follows
mend: pack it again; or name the table that it was packed for
",
    );
    folder.write("dent.row", hex("00 00 00 01 45 00"));
    refused(
        &folder,
        &format!("add-row {MAPPED} run Joint sheet:dent.row"),
        "dent.row: 6 bytes follow the last field, which ends in byte 0 (2, tail)
add_row refused, place 0: a filling bit is 1, or a byte follows
mend: lend an empty sheet; or name the table that it was packed for
",
    );
}

#[test]
fn refusal_9_dangling() {
    let folder = Folder::with_example("change-9", "base");
    let because = "add_row refused, place 0: a target row at or beyond its table's count";
    refused(
        &folder,
        &format!("add-row {MAPPED} run Dent joint=2 station=650"),
        &format!(
            "the new row of Dent: joint 2, but Joint has 2 rows (9, dangling)
{because}
mend: let joint name a row from 0 to 1, or add rows to Joint
"
        ),
    );
    folder.write("run/Dent.csv", "row,joint,station\n");
    folder.write("run/Loss.csv", "row,joint,station\n");
    folder.write("run/Joint.csv", bare_rows(0));
    refused(
        &folder,
        &format!("add-row {MAPPED} run Loss joint=0 station=650"),
        &format!(
            "the new row of Loss: joint 0, but Joint has 0 rows (9, dangling)
{because}
mend: add the rows of Joint
"
        ),
    );
    let told = "the new row of Loss: joint is `512`; expected a whole number from 0 to 511\n";
    bad(&folder, &format!("add-row {MAPPED} run Loss joint=512 station=650"), told);
}

/// Words of a dent of the book example but for its clock and depth.
const DENT: &str = "Dent spool=3 station=84290000 length=30 width=18";

#[test]
fn refusal_10_off_scale() {
    let folder = Folder::with_example("change-10", "book");
    let because =
        "add_row refused, place 0: a value below its kind's smallest or above its largest";
    let add = format!("add-row {MAPPED} run {DENT}");
    refused(
        &folder,
        &format!("{add} clock=721 depth=1001"),
        &format!(
            "the new row of Dent: clock 721, but the kind clock runs from 1 to 720 (10, off scale)
the new row of Dent: depth 1001, but the kind depth runs from 0 to 1000 (10, off scale)
{because}
mend: correct clock to 1 to 720 (in minutes)
"
        ),
    );
    refused(
        &folder,
        &format!("{add} clock=0 depth=1000"),
        &format!(
            "the new row of Dent: clock 0: twelve o'clock is written 720 (10, off scale)
{because}
mend: write clock 0 as 720
"
        ),
    );
    folder
        .sheet(&format!("{add} clock=720 depth=1000 --pushed pushed"))
        .printed("Dent 21 is new\n");
}

#[test]
fn refusal_11_bent_row() {
    let folder = Folder::with_example("change-11", "book");
    let loss = "station=84290000 clock=720 depth=120 length=30 width=18";
    let told = "the new row of Metal_Loss: Metal_Loss.spool.weld leads to Girth_Weld row 35, but Metal_Loss.weld to row 36 (11, bent row)
add_row refused, place 0: a row where the two sides of an equation lead to different rows
mend: let both lead to one row of Girth_Weld, as equation Metal_Loss.spool.weld = Metal_Loss.weld asks (vendor.schema line 39)
";
    refused(&folder, &format!("add-row {MAPPED} run Metal_Loss spool=35 weld=36 {loss}"), told);
    folder
        .sheet(&format!(
            "add-row {MAPPED} run Metal_Loss spool=35 weld=35 {loss} --pushed pushed.sheet"
        ))
        .printed("Metal_Loss 58 is new\n");
}

#[test]
fn refusal_15_overfull() {
    let folder = Folder::with_example("change-15", "base");
    folder.write("run/Joint.csv", bare_rows(508));
    folder
        .sheet(&format!("add-row {MAPPED} run Joint -o run --pushed pushed --force"))
        .printed("Joint 508 is new\n");
    let told = "run: has 512 rows already (Dent 2, Joint 509, Loss 1), at most 512 (15, overfull)
add_row refused, place 0: a migrated instance, or a run with an added row, has more than 512 rows
mend: withdraw a row first, or divide the run into several
";
    refused(&folder, &format!("add-row {MAPPED} run Joint"), told);
    // After what is judged of the row.
    let ran = folder.sheet(&format!("add-row {MAPPED} run Dent joint=509 station=0"));
    assert!(ran.err().starts_with("the new row of Dent: joint 509, but Joint has 509 rows (9, "));
    folder
        .sheet(&format!("withdraw-row {MAPPED} run Joint 300 -o run --pushed pushed --force"))
        .printed("Joint 301 to 508 are now 300 to 507\n");
    folder
        .sheet(&format!("add-row {MAPPED} run Dent joint=507 station=0 --pushed other"))
        .printed("Dent 2 is new\n");
}

#[test]
fn refusal_16_small_trays() {
    let folder = Folder::with_example("change-16", "base");
    let add = format!("add-row {MAPPED} run Dent joint=0 station=650");
    let because = "refused, place 0: a result needs more bytes than were lent";
    let run = "the run's tray: the changed run needs 25 bytes, but";
    let pushed = "the pushed tray: the pushed sheet needs 23 bytes, but";
    let mend = "mend: lend 25 bytes; 51220 hold every result";
    // The run itself has 20 bytes, which its tray always has.
    for (bytes, of_run) in [(0, 20), (19, 20), (22, 22)] {
        let told = format!(
            "{run} {of_run} were lent (16, small tray)
{pushed} {bytes} were lent (16, small tray)
add_row {because}
{mend}
"
        );
        refused(&folder, &format!("{add} --tray {bytes}"), &told);
    }
    for bytes in [23, 24] {
        let told = format!("{run} {bytes} were lent (16, small tray)\nadd_row {because}\n{mend}\n");
        refused(&folder, &format!("{add} --tray {bytes}"), &told);
    }
    folder.sheet(&format!("{add} --tray 25 --pushed pushed")).printed("Dent 2 is new\n");
    let told = format!(
        "the pushed tray: the pushed sheet needs 13 bytes, but 12 were lent (16, small tray)
withdraw_row {because}
mend: lend 14 bytes; 51220 hold every result
"
    );
    refused(&folder, &format!("withdraw-row --tray 12 {MAPPED} run Dent 0"), &told);
    // The changed run has 14 bytes, in the tray of 20.
    folder
        .sheet(&format!("withdraw-row --tray 13 {MAPPED} run Dent 0 -o less --pushed less.sheet"))
        .printed("Dent 1 is now 0\n");
}

/// S, T, mapping and run are judged before the change, each before those after it are
/// read.
#[test]
fn the_sheets_are_judged_before_the_change() {
    let folder = Folder::with_example("change-places", "base");
    folder.write("short.sheet", hex("10 21"));
    let texts: Vec<&str> = MAPPED.split(' ').collect();
    let changes = [
        ("add-row", "add_row", "Nothing at=all"),
        ("withdraw-row", "withdraw_row", "Nothing at-all"),
    ];
    let inside = [
        "the leading counts",
        "the leading counts",
        "link 0 of the image of Dent.joint",
        "the row count of Joint",
    ];
    let sheets = ["schema S", "schema T", "the mapping", "the run"];
    for (command, call, change) in changes {
        for place in 1..=4 {
            let mut lent = ["nowhere"; 4];
            lent[..place - 1].copy_from_slice(&texts[..place - 1]);
            lent[place - 1] = "short.sheet";
            let (inside, sheet) = (inside[place - 1], sheets[place - 1]);
            let or = if place > 2 { "; or lend the schema that it was packed for" } else { "" };
            let told = format!(
                "short.sheet: the sheet ends after 2 bytes, inside {inside} (1, cut)
{call} refused sheet {place}, {sheet} (short.sheet): the bits end before the last field does
mend: lend the whole sheet{or}
"
            );
            refused(&folder, &format!("{command} {} {change}", lent.join(" ")), &told);
        }
    }
}

#[test]
fn refusal_12_uneven_comes_before_the_change() {
    let folder = Folder::with_example("change-12", "base");
    let text = String::from_utf8(folder.read("operator.schema")).unwrap();
    folder.write("operator.schema", text + "link Anomaly.weld -> Joint\n");
    for (command, call) in [("add-row", "add_row"), ("withdraw-row", "withdraw_row")] {
        let told = format!(
            "vendor-to-operator.mapping line 3: no path from Dent goes to Anomaly.weld of T (12, uneven)
  equal to Anomaly.weld in T: no other path
vendor-to-operator.mapping line 9: no path from Loss goes to Anomaly.weld of T (12, uneven)
  equal to Anomaly.weld in T: no other path
{call} refused, place 0: Sigma, a change, a checker or transposition, and the mapping is not even
mend: add a link to Dent in vendor.schema and send it there, or take Anomaly.weld out of T
"
        );
        refused(&folder, &format!("{command} {MAPPED} run Nothing 0"), &told);
    }
}
