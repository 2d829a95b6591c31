//! The refusals 12 to 17, of mappings, results and lists: each met by an example
//! whose message is compared.

mod common;

use common::{bare_rows, equal_links, lines, Folder, MAPPED};

#[test]
fn refusal_12_uneven() {
    let folder = Folder::new("refusal-12");
    let because = "Sigma, a change, a checker or transposition, and the mapping is not even";
    let free = ["node A", "node B", "link A.x -> B", "link A.y -> B"];
    folder.write("two.schema", lines(&free));
    folder.write("one.schema", lines(&free[..3]));
    folder.write("run/A.csv", "row,x,y\n0,0,0\n");
    folder.write("run/B.csv", "row\n0\n");
    folder.write("less/A.csv", "row,x\n0,0\n");
    folder.write("less/B.csv", "row\n0\n");
    folder.write("fold.mapping", lines(&["A -> A", "B -> B", "A.x -> A.x", "A.y -> A.x"]));
    folder.sheet("sigma two.schema one.schema fold.mapping run").refused(&format!(
        "fold.mapping line 1: A.x and A.y both go to A.x of T, but are unequal in S (12, uneven)
  equal to A.x in S: no other path
  equal to A.y in S: no other path
sigma refused, place 0: {because}
mend: state `equation A.x = A.y` in two.schema, or send one of them elsewhere
"
    ));
    folder.write("in.mapping", lines(&["A -> A", "B -> B", "A.x -> A.x"]));
    folder.sheet("sigma one.schema two.schema in.mapping less").refused(&format!(
        "in.mapping line 1: no path from A goes to A.y of T (12, uneven)
  equal to A.y in T: no other path
sigma refused, place 0: {because}
mend: add a link to A in one.schema and send it there, or take A.y out of T
"
    ));
}

/// The steps in T that bring two paths of S to one, and what they are equal to.
#[test]
fn refusal_12_uneven_by_steps() {
    let folder = Folder::new("refusal-12-steps");
    folder.write("many.schema", lines(&["node A", "node B"]) + &equal_links("l", 8));
    let two = ["node A", "node B", "link A.x -> B", "link A.y -> B", "link A.z -> B"];
    folder.write("two.schema", lines(&two) + "equation A.z = A.y\n");
    folder.write("run/A.csv", "row,x,y,z\n");
    folder.write("run/B.csv", "row\n");
    let images = ["A -> A", "B -> B", "A.x -> A.l7", "A.y -> A.l1", "A.z -> A.l0"];
    folder.write("fold.mapping", lines(&images));
    let notes = [
        "A.x goes to A.l7, equal to A.l0 in T by 7 steps",
        "  1  A.[l7] = A.[l6]  equation 6, right to left (many.schema line 17)",
        "  2  A.[l6] = A.[l5]  equation 5, right to left (many.schema line 16)",
        "  3  A.[l5] = A.[l4]  equation 4, right to left (many.schema line 15)",
        "  4  A.[l4] = A.[l3]  equation 3, right to left (many.schema line 14)",
        "  5  A.[l3] = A.[l2]  equation 2, right to left (many.schema line 13)",
        "  and 2 steps more",
        "A.y goes to A.l1, equal to A.l0 in T by 1 step",
        "  1  A.[l1] = A.[l0]  equation 0, right to left (many.schema line 11)",
        "equal to A.x in S: no other path",
        "equal to A.y in S: A.z",
    ];
    let what = "fold.mapping line 1: A.x and A.y both go to A.l0 of T, but are unequal in S";
    let told: String = notes.iter().map(|note| format!("  {note}\n")).collect();
    folder.sheet("sigma two.schema many.schema fold.mapping run").refused(&format!(
        "{what} (12, uneven)
{told}sigma refused, place 0: Sigma, a change, a checker or transposition, and the mapping is not even
mend: state `equation A.x = A.y` in two.schema, or send one of them elsewhere
"
    ));
    let told: String = notes.iter().map(|note| format!("    {note}\n")).collect();
    folder.sheet("check mapping two.schema many.schema fold.mapping").printed(&format!(
        "accepted
sigma, match and turn: not taken (12, uneven)
  {what}
{told}pi: taken
"
    ));
    folder.write("none.schema", "node A\nnode B\n");
    folder.write("none/A.csv", "row\n");
    folder.write("none/B.csv", "row\n");
    folder.write("in.mapping", "A -> A\nB -> B\n");
    folder.sheet("sigma none.schema many.schema in.mapping none").refused(
        "in.mapping line 1: no path from A goes to A.l0 of T (12, uneven)
  equal to A.l0 in T: A.l1, A.l2, A.l3, A.l4, A.l5 and 2 more
sigma refused, place 0: Sigma, a change, a checker or transposition, and the mapping is not even
mend: add a link to A in none.schema and send it there, or take A.l0 out of T
",
    );
}

#[test]
fn refusal_12_uneven_columns() {
    let folder = Folder::new("refusal-12-columns");
    let because = "Sigma, a change, a checker or transposition, and the mapping is not even";
    let wide = ["node A", "column A.deep : depth", "column A.deeper : depth"];
    folder.write("wide.schema", lines(&wide));
    folder.write("slim.schema", lines(&wide[..2]));
    folder.write("wide/A.csv", "row,deep,deeper\n0,1,2\n");
    folder.write("slim/A.csv", "row,deep\n0,1\n");
    folder.write("both.mapping", lines(&["A -> A", "A.deep -> A.deep", "A.deeper -> A.deep"]));
    folder.write("list.csv", "table,row,partner\nA,0,0\n");
    let lent = "wide.schema slim.schema both.mapping wide slim list.csv";
    folder.sheet(&format!("match pushed {lent}")).refused(&format!(
        "both.mapping line 3: A.deep and A.deeper both go to A.deep (12, uneven)
check_pushed refused, place 0: {because}
mend: leave one of them out, or send it to a column of its own
"
    ));
    folder.write("some.mapping", lines(&["A -> A", "A.deep -> A.deep"]));
    let lent = "slim.schema wide.schema some.mapping slim wide list.csv";
    folder.sheet(&format!("turn pushed-to-raw {lent}")).refused(&format!(
        "some.mapping line 1: no column of A goes to A.deeper (12, uneven)
pushed_to_raw refused, place 0: {because}
mend: add a column of kind depth to A in slim.schema and send it to A.deeper
"
    ));
}

#[test]
fn refusal_13_unpaired() {
    let folder = Folder::with_example("refusal-13", "base");
    folder.sheet(&format!("pi {MAPPED} run")).refused(
        "vendor-to-operator.mapping line 11: Dent.station and Loss.station both go to Anomaly.station (13, unpaired)
pi refused, place 0: Pi, and the attribute mapping is not a bijection
mend: send each column to a column of its own
",
    );
    folder.write("bare.schema", "node Joint\n");
    folder.write("bare/Joint.csv", bare_rows(2));
    folder.write("bare.mapping", "Joint -> Joint\n");
    folder.sheet("pi bare.schema operator.schema bare.mapping bare").refused(
        "bare.mapping: no column of S goes to Anomaly.station (13, unpaired)
pi refused, place 0: Pi, and the attribute mapping is not a bijection
mend: send a column of S to Anomaly.station, or leave it out of T
",
    );
}

#[test]
fn refusal_14_wide() {
    let folder = Folder::new("refusal-14");
    let nodes: String = (0..7).map(|number| format!("node N{number}\n")).collect();
    let chain = (0..6).map(|number| {
        let next = number + 1;
        format!("link N{number}.a -> N{next}\nlink N{number}.b -> N{next}\n")
    });
    folder.write("chain.schema", nodes + &chain.collect::<String>());
    folder.write("pair.schema", "node A\nnode B\n");
    folder.write("pair.mapping", "A -> N6\nB -> N6\n");
    folder.write("run/A.csv", bare_rows(1));
    folder.write("run/B.csv", bare_rows(1));
    folder.sheet("pi pair.schema chain.schema pair.mapping run").refused(
        "pair.mapping: N0 has 128 components, at most 64 (14, wide)
pi refused, place 0: Pi, and a table has more than 64 components
mend: send fewer nodes of S to where many paths of T lead, or equate paths of T
",
    );
}

#[test]
fn refusal_15_overfull() {
    let folder = Folder::new("refusal-15");
    folder.write("parts.schema", "node Joint\nnode Weld\n");
    let pairs = [
        "node Pair",
        "node Joint",
        "node Weld",
        "link Pair.joint -> Joint",
        "link Pair.weld -> Weld",
    ];
    folder.write("pairs.schema", lines(&pairs));
    let equal = ["link Pair.same -> Joint", "equation Pair.joint = Pair.same"];
    folder.write("equal.schema", lines(&pairs) + &lines(&equal));
    folder.write("parts.mapping", "Joint -> Joint\nWeld -> Weld\n");
    folder.write("run/Joint.csv", bare_rows(30));
    folder.write("run/Weld.csv", bare_rows(20));
    // Equal paths are one way to a table.
    for t in ["pairs.schema", "equal.schema"] {
        folder.sheet(&format!("pi parts.schema {t} parts.mapping run")).refused(
            "run: a row of Pair is a fitting choice of one row each from Joint (30 rows), Weld (20 rows): up to 600 rows, at most 512 in all tables (15, overfull)
pi refused, place 0: a migrated instance, or a run with an added row, has more than 512 rows
mend: lend a run with fewer rows in these tables
",
        );
    }
    folder.write("one.schema", "node Part\n");
    folder.write("one.mapping", "Joint -> Part\nWeld -> Part\n");
    folder.write("book/Part.csv", bare_rows(300));
    folder.sheet("delta parts.schema one.schema one.mapping book").refused(
        "book: pulled back it has 600 rows (Joint 300 as Part, Weld 300 as Part), at most 512 (15, overfull)
delta refused, place 0: a migrated instance, or a run with an added row, has more than 512 rows
mend: lend a book with fewer rows in the tables that are copied several times
",
    );
}

#[test]
fn refusal_16_small_tray() {
    // Document 01's case 12.
    let folder = Folder::with_example("refusal-16", "base");
    folder.sheet(&format!("sigma --tray 17 {MAPPED} run -o pushed")).refused(
        "the tray: the result needs 18 bytes, but 17 were lent (16, small tray)
sigma refused, place 0: a result needs more bytes than were lent
mend: lend 18 bytes; 51220 hold every result
",
    );
    folder.sheet(&format!("sigma --tray 18 {MAPPED} run -o pushed.sheet")).silent();
    assert_eq!(folder.read("pushed.sheet").len(), 18);
    folder.sheet(&format!("turn --tray=5 raw-to-pushed {MAPPED} run book raw.csv")).refused(
        "the tray: the result needs 6 bytes, but 5 were lent (16, small tray)
raw_to_pushed refused, place 0: a result needs more bytes than were lent
mend: lend 6 bytes; 576 hold every result
",
    );
}

#[test]
fn refusal_17_no_match() {
    let folder = Folder::with_example("refusal-17", "base");
    let text = |name: &str| String::from_utf8(folder.read(name)).unwrap();
    let (pushed, raw) = (text("pushed.csv"), text("raw.csv"));
    folder.write("value.csv", pushed.replace("Anomaly,2,1", "Anomaly,2,2"));
    folder.sheet(&format!("match pushed {MAPPED} run book value.csv")).refused(
        "value.csv line 4, Anomaly row 2: station 705, but its partner 2 has 700 (17, no match)
check_pushed refused sheet 6, the list (value.csv): the list is not a matching
mend: name a partner whose station is 705
",
    );
    folder.write("link.csv", pushed.replace("Joint,0,0", "Joint,0,1"));
    folder.sheet(&format!("turn pushed-to-raw {MAPPED} run book link.csv")).refused(
        "link.csv line 3, Anomaly row 1: joint leads to Joint row 0 with partner 1, but the joint of its partner 0 is 0 (17, no match)
pushed_to_raw refused sheet 6, the list (link.csv): the list is not a matching
mend: let the partners of the row and of its joint be linked too
",
    );
    folder.write("none.csv", raw.replace("Loss,0,1", "Loss,0,7"));
    folder.sheet(&format!("match raw {MAPPED} run book none.csv")).refused(
        "none.csv line 6, Loss row 0: partner 7, but the book's Anomaly has 3 rows (17, no match)
check_raw refused sheet 6, the list (none.csv): the list is not a matching
mend: name a row of the book's Anomaly as partner
",
    );
}
