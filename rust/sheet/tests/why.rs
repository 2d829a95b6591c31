//! `sheet why`: the steps by which two paths are equal, and what unequal paths
//! are equal to.

mod common;

use common::generate::{self, Random};
use common::{equal_links, hex, lines, Folder, RULED};
use sheet::{all_paths, Answer, Call, Chain, Lent, LentSchema, Path, Question};

/// Four links that are equal by three equations, and two that are equal to none of
/// them.
const ROUND: [&str; 13] = [
    "node A",
    "node B",
    "node C",
    "link A.north -> B",
    "link A.east -> B",
    "link A.south -> B",
    "link A.west -> B",
    "link A.up -> B",
    "link B.on -> C",
    "link B.off -> C",
    "equation A.north = A.east",
    "equation A.south = A.east",
    "equation A.south = A.west",
];

#[test]
fn one_step_with_the_replaced_part_marked() {
    let folder = Folder::new("why-one");
    folder.write("ruled.schema", lines(&RULED));
    let why = |p: &str, q: &str| folder.sheet(&format!("why ruled.schema {p} {q}"));
    let rule = "equation 0, left to right (ruled.schema line 15)";
    why("A.a.b", "A.c.d").printed(&format!("equal by 1 step\n  1  A.[a.b] = A.[c.d]  {rule}\n"));
    why("A.a.b.f", "A.c.d.f")
        .printed(&format!("equal by 1 step\n  1  A.[a.b].f = A.[c.d].f  {rule}\n"));
    why("S.s.a.b.f.g", "S.s.c.d.f.g")
        .printed(&format!("equal by 1 step\n  1  S.s.[a.b].f.g = S.s.[c.d].f.g  {rule}\n"));
    why("S.s.c.d", "S.s.a.b").printed(
        "equal by 1 step\n  1  S.s.[c.d] = S.s.[a.b]  equation 0, right to left (ruled.schema line 15)\n",
    );
}

#[test]
fn several_steps_one_a_line() {
    let folder = Folder::new("why-several");
    folder.write("round.schema", lines(&ROUND) + "equation B.on = B.off\n");
    folder.sheet("why round.schema A.north.off A.west.on").printed(
        "equal by 4 steps
  1  A.[north].off = A.[east].off   equation 0, left to right (round.schema line 11)
  2  A.[east].off  = A.[south].off  equation 1, right to left (round.schema line 12)
  3  A.[south].off = A.[west].off   equation 2, left to right (round.schema line 13)
  4  A.west.[off]  = A.west.[on]    equation 3, right to left (round.schema line 14)
",
    );
    // Ten steps and more have numbers of two digits.
    folder.write("long.schema", "node A\nnode B\n".to_string() + &equal_links("l", 12));
    let told = folder.sheet("why long.schema A.l11 A.l0").out();
    let told: Vec<&str> = told.lines().collect();
    assert_eq!(told.len(), 12);
    assert_eq!(told[0], "equal by 11 steps");
    assert_eq!(
        told[1],
        "   1  A.[l11] = A.[l10]  equation 10, right to left (long.schema line 25)"
    );
    assert_eq!(
        told[11],
        "  11  A.[l1]  = A.[l0]   equation 0, right to left (long.schema line 15)"
    );
}

#[test]
fn no_step_where_both_are_the_same_list() {
    let folder = Folder::with_example("why-same", "base");
    let same = "equal by 0 steps: both are the same list of links\n";
    folder.sheet("why vendor.schema Dent.joint Dent.joint").printed(same);
    folder.sheet("why vendor.schema Joint Joint").printed(same);
}

#[test]
fn unequal_paths_with_what_each_is_equal_to() {
    let folder = Folder::new("why-unequal");
    folder.write("round.schema", lines(&ROUND));
    let why = |p: &str, q: &str| folder.sheet(&format!("why round.schema {p} {q}"));
    why("A.south", "A.up").printed(
        "unequal: no equations lead from A.south to A.up
equal to A.south:
  A.north
  A.east
  A.west
equal to A.up: no other path
",
    );
    why("A.up.on", "A.west.on").printed(
        "unequal: no equations lead from A.up.on to A.west.on
equal to A.up.on: no other path
equal to A.west.on:
  A.north.on
  A.east.on
  A.south.on
",
    );
}

#[test]
fn other_starts_and_ends() {
    let folder = Folder::new("why-ends");
    folder.write("round.schema", lines(&ROUND));
    let why = |p: &str, q: &str| folder.sheet(&format!("why round.schema {p} {q}"));
    why("A.up", "A.up.on").printed(
        "unequal: A.up ends at B, A.up.on at C
equal to A.up: no other path
equal to A.up.on: no other path
",
    );
    why("B.on", "A.up.on").printed(
        "unequal: B.on starts at B, A.up.on at A
equal to B.on: no other path
equal to A.up.on: no other path
",
    );
    why("A.west", "B").printed(
        "unequal: A.west starts at A, B at B
equal to A.west:
  A.north
  A.east
  A.south
equal to B: no other path
",
    );
    why("A.up", "C").printed(
        "unequal: A.up starts at A, C at C; A.up ends at B, C at C
equal to A.up: no other path
equal to C: no other path
",
    );
}

/// A sheet has no names and no lines.
#[test]
fn a_schema_sheet_and_path_sheets() {
    let folder = Folder::new("why-sheets");
    folder.write("ruled.schema", lines(&RULED[1..]).replace("link S.s -> A\n", ""));
    folder.sheet("pack schema ruled.schema -o ruled.sheet").silent();
    folder.sheet("pack path ruled.schema A.a.b.f -o p.sheet").silent();
    let told = "equal by 1 step
  1  node0.[link0.link1].link4 = node0.[link2.link3].link4  equation 0, left to right
";
    folder.sheet("why ruled.sheet sheet:p.sheet node0.link2.link3.link4").printed(told);
    let words = ["why", "ruled.sheet", "node0.link0.link1.link4", "sheet:-"];
    folder.run(&words, &hex("03 10 C8")).printed(told);
}

#[test]
fn refused_sheets_are_told() {
    let folder = Folder::new("why-refused");
    folder.write("ruled.schema", lines(&RULED));
    folder.write("ring.schema", "node A\nnode B\nlink A.b -> B\nlink B.a -> A\n");
    folder.write("short.sheet", hex("02 00"));
    folder.write("astray.sheet", hex("01 10"));
    folder.sheet("why ring.schema nonsense nonsense").refused(
        "ring.schema line 4: A.b, B.a lead from A back to A (5, ring)
path_chain refused sheet 1, the schema (ring.schema): the edges form a loop
mend: take out one of these links
",
    );
    folder.sheet("why ruled.schema sheet:short.sheet A").refused(
        "short.sheet: the sheet ends after 2 bytes, inside link 1 of the path (1, cut)
path_chain refused sheet 2, the first path (short.sheet): the bits end before the last field does
mend: lend the whole sheet
",
    );
    folder.sheet("why ruled.schema A sheet:astray.sheet").refused(
        "astray.sheet: path S.b has come to S, where link B.b does not start (4, stray)
path_chain refused sheet 3, the second path (astray.sheet): a schema or path names a missing \
         node or edge, a path's edges do not join, or an equation's sides differ in start or end
mend: name a node, and links that lead on from it
",
    );
    folder.sheet("why ruled.schema A.a.d A.a").bad("path A.a.d: B has no link d; its links: b\n");
}

#[test]
fn a_small_tray_is_told() {
    let s = LentSchema::from_text("round.schema", &lines(&ROUND)).unwrap();
    let mut question = Question::new(Call::PathChain);
    let path = |text| Lent::path(text, s.schema.as_ref().unwrap()).ok();
    (question.p, question.q) = (path("A.north"), path("A.north"));
    question.s = Some(s.clone());
    question.tray = Some(0);
    let told = |question: &Question| question.explain(question.ask().unwrap_err()).to_string();
    assert_eq!(
        told(&question),
        "the tray: the result needs 1 byte, but 0 were lent (16, small tray)
path_chain refused, place 0: a result needs more bytes than were lent
mend: lend 1 byte; 320 hold every result
"
    );
    question.q = path("A.west");
    question.tray = Some(4);
    assert!(told(&question).starts_with("the tray: the result needs 5 bytes, but 4 were lent"));
    // None needs no tray.
    question.q = path("A.up");
    question.tray = Some(0);
    assert_eq!(question.ask(), Ok(Answer::Equal(false)));
}

/// The steps from one path to another, if there are any.
fn chain(sheet: &[u8], p: &Path, q: &Path) -> Option<Chain> {
    let (p, q) = (p.to_sheet().unwrap(), q.to_sheet().unwrap());
    let written = migration::path_chain(sheet, &p, &q).unwrap()?;
    Some(Chain::from_sheet(&written).unwrap())
}

/// The first path that is equal to a path, as a sheet.
fn first_path(sheet: &[u8], path: &Path) -> Vec<u8> {
    migration::first_path(sheet, &path.to_sheet().unwrap()).unwrap()
}

/// Of two paths of schemas at random: the steps lead from one to the other, and
/// there are none exactly where the paths are unequal.
#[test]
fn the_steps_lead_from_one_path_to_the_other() {
    let mut longest = 0;
    for seed in 0..200 {
        let schema = generate::schema(&mut Random::seeded(seed));
        let over = LentSchema::from_text("any.schema", &schema.to_text()).unwrap();
        let (sheet, paths) = (&over.lent.sheet, all_paths(&schema).unwrap());
        for (p, q) in paths.iter().flat_map(|p| paths.iter().map(move |q| (p, q))) {
            let found = chain(sheet, p, q);
            let equal = first_path(sheet, p) == first_path(sheet, q);
            assert_eq!(found.is_some(), equal, "seed {seed}");
            let Some(found) = found else { continue };
            let made = found.steps.iter().try_fold(p.clone(), |at, step| step.made(&schema, &at));
            assert_eq!(made.as_ref(), Some(q), "seed {seed}");
            let told = found.to_lines(&over, p).unwrap();
            assert_eq!(told.len(), found.steps.len());
            longest = longest.max(told.len());
        }
    }
    assert!(longest > 1, "no chain of several steps");
}

/// Steps that are none of a path make nothing of it: the other side stands there,
/// or another link, or no such link, or another node where a side has no link.
#[test]
fn steps_that_do_not_fit_are_none() {
    let text = lines(&RULED) + "equation A = A\n";
    let over = LentSchema::from_text("ruled.schema", &text).unwrap();
    let schema = over.schema.as_ref().unwrap();
    let path = |text: &str| Path::parse(schema, text).unwrap();
    let made = |from: &str, equation, back, before| {
        sheet::Step { equation, back, before }.made(schema, &path(from))
    };
    assert_eq!(made("S.s.a.b.f", 0, false, 1), Some(path("S.s.c.d.f")));
    assert_eq!(made("S.s.c.d.f", 0, true, 1), Some(path("S.s.a.b.f")));
    assert_eq!(made("S.s.a.b.f", 0, true, 1), None);
    assert_eq!(made("S.s.a.b.f", 0, false, 0), None);
    assert_eq!(made("S.s.a.b.f", 0, false, 9), None);
    assert_eq!(made("S.s.a.b.f", 1, false, 1), Some(path("S.s.a.b.f")));
    assert_eq!(made("S.s.a.b.f", 1, false, 0), None);
    assert_eq!(made("S.s.a.b.f", 1, false, 2), None);
    assert_eq!(made("S.s.a.b.f", 2, false, 1), None);
    let far = Chain { steps: vec![sheet::Step { equation: 0, back: false, before: 2 }] };
    assert_eq!(far.to_lines(&over, &path("S.s.a.b.f")), None);
}
