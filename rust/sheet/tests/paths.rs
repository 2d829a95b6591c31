//! `sheet first-path` and `sheet same-path`: the first path that is equal to a
//! path, and whether that is the same for two.

mod common;

use common::generate::{self, Random};
use common::{command, hex, lines, Folder, Ran, RULED};
use sheet::{all_paths, Answer, Call, Lent, LentSchema, Path, Question};
use std::process::Stdio;

/// Three paths that are equal by two equations, the shorter ones with higher link
/// numbers.
const EQUAL: [&str; 9] = [
    "node A",
    "node B",
    "node C",
    "link A.a -> B",
    "link B.b -> C",
    "link A.c -> C",
    "link A.d -> C",
    "equation A.d = A.a.b",
    "equation A.a.b = A.c",
];

/// Schemas with and without a loop, and sheets that are no paths.
fn with_bad_paths(name: &str) -> Folder {
    let folder = Folder::new(name);
    folder.write("ruled.schema", lines(&RULED));
    folder.write("ring.schema", "node A\nnode B\nlink A.b -> B\nlink B.a -> A\n");
    folder.write("short.sheet", hex("02 00"));
    folder.write("long.sheet", hex("10 00"));
    folder.write("astray.sheet", hex("01 10"));
    folder
}

const RING: &str = "ring.schema line 4: A.b, B.a lead from A back to A (5, ring)
CALL refused sheet 1, the schema (ring.schema): the edges form a loop
mend: take out one of these links
";

const SHORT: &str = "short.sheet: the sheet ends after 2 bytes, inside link 1 of the path (1, cut)
CALL refused sheet PLACE (short.sheet): the bits end before the last field does
mend: lend the whole sheet
";

const LONG: &str = "long.sheet: 1 byte follows the last field, which ends in byte 1 (2, tail)
CALL refused sheet PLACE (long.sheet): a filling bit is 1, or a byte follows
mend: lend its first 1 byte alone
";

const ASTRAY: &str =
    "astray.sheet: path S.b has come to S, where link B.b does not start (4, stray)
CALL refused sheet PLACE (astray.sheet): a schema or path names a missing node or edge, a path's \
     edges do not join, or an equation's sides differ in start or end
mend: name a node, and links that lead on from it
";

/// One of these messages, from a call about the sheet at a place.
fn told(message: &str, call: &str, place: &str) -> String {
    message.replace("CALL", call).replace("PLACE", place)
}

#[test]
fn the_first_path_is_printed() {
    let folder = Folder::with_example("first-path", "book");
    let first = |path: &str| folder.sheet(&format!("first-path operator.schema {path}"));
    first("Anomaly.joint.upstream").printed("Anomaly.reference\n");
    for own in ["Anomaly.reference", "Anomaly.joint", "Joint.upstream", "Weld"] {
        first(own).printed(&format!("{own}\n"));
    }
}

/// The shortest is first, and of two links the one with the lower number.
#[test]
fn the_first_path_is_first_in_the_order_of_paths() {
    let folder = Folder::new("first-path-order");
    folder.write("equal.schema", lines(&EQUAL));
    let first = |path: &str| folder.sheet(&format!("first-path equal.schema {path}"));
    for path in ["A.a.b", "A.c", "A.d"] {
        first(path).printed("A.c\n");
    }
    first("A.a").printed("A.a\n");
    // A step inside a path.
    folder.write("ruled.schema", lines(&RULED));
    folder.sheet("first-path ruled.schema S.s.c.d.f.g").printed("S.s.a.b.f.g\n");
}

#[test]
fn sheets_and_files_of_first_paths() {
    let folder = Folder::new("first-path-sheets");
    folder.write("ruled.schema", lines(&RULED));
    folder.sheet("pack schema ruled.schema -o ruled.sheet").silent();
    folder.sheet("pack path ruled.schema A.c.d -o p.sheet").silent();
    let first = "first-path ruled.schema sheet:p.sheet";
    folder.sheet(first).printed("A.a.b\n");
    folder.sheet(&format!("{first} -o first.sheet")).silent();
    assert_eq!(folder.read("first.sheet"), hex("12 08 80"));
    assert_eq!(folder.sheet(&format!("{first} -o sheet:-")).0.stdout, hex("12 08 80"));
    folder.sheet("show path ruled.schema sheet:first.sheet").printed("A.a.b\n");
    folder.sheet("first-path ruled.schema sheet:first.sheet").printed("A.a.b\n");
    folder.sheet(&format!("{first} -o first.txt")).silent();
    assert_eq!(folder.read("first.txt"), b"A.a.b\n");
    folder.write("first.sheet", "precious");
    let again = format!("{first} -o first.sheet");
    folder.sheet(&again).bad("sheet: first.sheet exists; --force replaces it\n");
    assert_eq!(folder.read("first.sheet"), b"precious");
    folder.sheet(&format!("{again} --force")).silent();
    assert_eq!(folder.read("first.sheet"), hex("12 08 80"));
    // A schema sheet has no names.
    let nameless = "node1.link1.link2\n";
    folder.sheet("first-path ruled.sheet node1.link3.link4").printed(nameless);
    folder.run(&["first-path", "ruled.sheet", "sheet:-"], &hex("12 19 00")).printed(nameless);
}

#[test]
fn first_path_tells_what_is_refused() {
    let folder = with_bad_paths("first-path-refused");
    // The schema is sent back before the path is read.
    folder.sheet("first-path ring.schema nonsense").refused(&told(RING, "first_path", ""));
    for (sheet, message) in [("short", SHORT), ("long", LONG), ("astray", ASTRAY)] {
        let message = told(message, "first_path", "2, the path");
        for command in ["first-path", "pack path", "show path"] {
            folder.sheet(&format!("{command} ruled.schema sheet:{sheet}.sheet")).refused(&message);
        }
    }
    folder.sheet("first-path --tray 2 ruled.schema A.c.d").refused(
        "the tray: the result needs 3 bytes, but 2 were lent (16, small tray)
first_path refused, place 0: a result needs more bytes than were lent
mend: lend 3 bytes; 11 hold every result
",
    );
    folder.sheet("first-path --tray 3 ruled.schema A.c.d").printed("A.a.b\n");
    folder
        .sheet("first-path ruled.schema A.a.d")
        .bad("path A.a.d: B has no link d; its links: b\n");
}

/// Answered no: this on standard output, nothing on standard error.
fn unequal(ran: Ran) {
    assert_eq!((ran.out(), ran.err(), ran.status()), ("unequal\n".into(), "".into(), 1));
}

#[test]
fn the_status_of_same_path_is_its_answer() {
    let folder = Folder::with_example("same-path", "book");
    let ask = |p: &str, q: &str| folder.sheet(&format!("same-path operator.schema {p} {q}"));
    ask("Anomaly.joint.upstream", "Anomaly.reference").printed("equal\n");
    ask("Joint", "Joint").printed("equal\n");
    unequal(ask("Anomaly.joint", "Anomaly.reference"));
    unequal(ask("Anomaly", "Joint"));
    // Links of a schema sheet, and a path sheet.
    folder.sheet("pack schema operator.schema -o operator.sheet").silent();
    folder.sheet("pack path operator.schema Anomaly.reference -o p.sheet").silent();
    let of_sheets = "same-path operator.sheet sheet:p.sheet node0.link";
    folder.sheet(&format!("{of_sheets}0.link2")).printed("equal\n");
    unequal(folder.sheet(&format!("{of_sheets}0")));
}

/// The places are those of what was named, though a call has the second path at
/// place 2 too.
#[test]
fn same_path_tells_which_path_is_refused() {
    let folder = with_bad_paths("same-path-refused");
    folder.sheet("same-path ring.schema nonsense A").refused(&told(RING, "same-path", ""));
    for (sheet, message) in [("short", SHORT), ("long", LONG), ("astray", ASTRAY)] {
        let (first, second) = ("2, the first path", "3, the second path");
        let first = told(message, "same-path", first);
        folder.sheet(&format!("same-path ruled.schema sheet:{sheet}.sheet A")).refused(&first);
        // The first path is sent back before the second is read.
        folder.sheet(&format!("same-path ruled.schema sheet:{sheet}.sheet B.d")).refused(&first);
        let second = told(message, "same-path", second);
        folder.sheet(&format!("same-path ruled.schema A sheet:{sheet}.sheet")).refused(&second);
    }
    folder.sheet("same-path ruled.schema A B.d").bad("path B.d: B has no link d; its links: b\n");
}

#[test]
fn the_status_of_same_path_is_its_answer_where_the_pipe_is_closed() {
    let folder = Folder::with_example("same-path-closed", "base");
    for (other, status) in [("Dent.joint", 0), ("Dent", 1)] {
        let (reader, writer) = std::io::pipe().unwrap();
        drop(reader);
        let mut closed = command(folder.path());
        closed.args(["same-path", "vendor.schema", "Dent.joint", other]);
        let ran = Ran(closed.stdin(Stdio::null()).stdout(writer).output().unwrap());
        assert_eq!((ran.err().as_str(), ran.status()), ("", status), "{other}");
    }
}

/// Of schemas at random: the answer is the first path to which steps lead, and two
/// paths are equal exactly where it is the same.
#[test]
fn the_first_path_is_the_first_to_which_steps_lead() {
    let mut others = 0;
    for seed in 0..100 {
        let schema = generate::schema(&mut Random::seeded(seed));
        let s = LentSchema::from_sheet("s.sheet", schema.to_sheet().unwrap());
        let paths = all_paths(&schema).unwrap();
        let lent = |path: &Path| Some(Lent::from_sheet("a path", path.to_sheet().unwrap()));
        let ask = |call: Call, p: &Path, q: &Path| {
            let mut question = Question::new(call);
            (question.s, question.p, question.q) = (Some(s.clone()), lent(p), lent(q));
            question.ask().unwrap()
        };
        for p in &paths {
            let leads = |q: &&Path| ask(Call::PathChain, p, q) != Answer::Equal(false);
            let first = paths.iter().find(leads).unwrap();
            let answer = ask(Call::FirstPath, p, p);
            assert_eq!(answer, Answer::Sheet(first.to_sheet().unwrap()), "seed {seed}");
            others += usize::from(first != p);
            for q in &paths {
                assert_eq!(ask(Call::SamePath, p, q), Answer::Equal(leads(&q)), "seed {seed}");
            }
        }
    }
    assert!(others > 0, "every path is its own first");
}
