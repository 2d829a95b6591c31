//! The refusals of single sheets, 1 to 11: each met by an example whose message
//! is compared.

mod common;

use common::{bare_rows, equal_links, hex, lines, misfit, Folder, MAPPED};

#[test]
fn refusal_1_cut() {
    let folder = Folder::with_example("refusal-1", "base");
    folder.write("short.sheet", hex("18 42 00 04 84"));
    folder.sheet("check schema short.sheet").refused(
        "short.sheet: the sheet ends after 5 bytes, inside the node of column 0 (1, cut)
check_schema refused sheet 1, the schema (short.sheet): the bits end before the last field does
mend: lend the whole sheet
",
    );
    folder.write("empty.sheet", "");
    folder.sheet(&format!("sigma {MAPPED} empty.sheet")).refused(
        "empty.sheet: the sheet is empty (1, cut)
sigma refused sheet 4, the run (empty.sheet): the bits end before the last field does
mend: lend the whole sheet; or lend the schema that it was packed for
",
    );
    folder
        .write("short.csv", "table,row,partner\nAnomaly,0,2\nAnomaly,1,0\nJoint,0,0\nJoint,1,1\n");
    folder.sheet(&format!("match pushed {MAPPED} run book short.csv")).refused(
        "short.csv: 2 rows of Anomaly in the list, but 3 in the pushed run (1, cut)
check_pushed refused sheet 6, the list (short.csv): the bits end before the last field does
mend: give each row of Anomaly in the pushed run its line, and no other
",
    );
}

#[test]
fn refusal_2_tail() {
    let folder = Folder::with_example("refusal-2", "base");
    folder.write("long.sheet", hex("01 00 00"));
    folder.run(&["same-path", "vendor.schema", "Dent.joint", "sheet:long.sheet"], b"").refused(
        "long.sheet: 1 byte follows the last field, which ends in byte 2 (2, tail)
same-path refused sheet 3, the second path (long.sheet): a filling bit is 1, or a byte follows
mend: lend its first 2 bytes alone
",
    );
    folder.write("filled.sheet", hex("01 01 00 80 01"));
    folder.sheet("check mapping vendor.schema operator.schema filled.sheet").refused(
        "filled.sheet: byte 5 has a bit 1 after the last field (2, tail)
check_mapping refused sheet 3, the mapping (filled.sheet): a filling bit is 1, or a byte follows
mend: pack it again; or lend the schema that it was packed for
",
    );
    folder.write(
        "long.csv",
        "table,row,partner\nDent,0,2\nDent,1,0\nJoint,0,0\nJoint,1,1\nLoss,0,1\nLoss,1,1\n",
    );
    folder.sheet(&format!("turn raw-to-pushed {MAPPED} run book long.csv")).refused(
        "long.csv: 2 rows of Loss in the list, but 1 in the run (2, tail)
raw_to_pushed refused sheet 6, the list (long.csv): a filling bit is 1, or a byte follows
mend: give each row of Loss in the run its line, and no other
",
    );
}

#[test]
fn refusal_3_count() {
    let folder = Folder::new("refusal-3");
    let because = "a count, or the sum of the row counts, beyond its limit, or no node";
    let nodes: String = (0..17).map(|number| format!("node N{number}\n")).collect();
    folder.write("many.schema", format!("{nodes}link N16.up -> N0\n"));
    folder.sheet("check schema many.schema").refused(&format!(
        "many.schema line 17: 17 nodes, but a schema has at most 16 (3, count)
check_schema refused sheet 1, the schema (many.schema): {because}
mend: leave out 1 node
"
    ));
    folder.write("none.schema", "# nothing yet\n");
    folder.sheet("check schema none.schema").refused(&format!(
        "none.schema: no node, but a schema has at least 1 (3, count)
check_schema refused sheet 1, the schema (none.schema): {because}
mend: add a line `node NAME`
"
    ));
    folder.write("one.schema", "node A\nnode B\nlink A.b -> B\n");
    let links: String = (0..500).map(|row| format!("{row},{}\n", 1000 + row)).collect();
    folder.write("run/A.csv", format!("row,b\n{links}"));
    folder.write("run/B.csv", bare_rows(13));
    folder.sheet("check instance one.schema run").refused(&format!(
        "run: 513 rows in all (A 500, B 13), but an instance has at most 512 (3, count)
check_instance refused sheet 2, the instance (run): {because}
mend: leave rows out, or divide the instance into several
"
    ));
    folder.write("beyond.sheet", hex("FF FF FF"));
    folder.sheet("check schema beyond.sheet").refused(&format!(
        "beyond.sheet: 31 nodes, but a schema has at most 16 (3, count)
check_schema refused sheet 1, the schema (beyond.sheet): {because}
"
    ));
}

#[test]
fn refusal_4_stray() {
    let folder = Folder::new("refusal-4");
    let because = "a schema or path names a missing node or edge, a path's edges do not join, \
                   or an equation's sides differ in start or end";
    let schema =
        ["node A", "node B", "node C", "link A.x -> B", "link A.y -> C", "equation A.x = A.y"];
    folder.write("ends.schema", lines(&schema));
    folder.sheet("check schema ends.schema").refused(&format!(
        "ends.schema line 6: equation A.x = A.y: the left side ends at B, the right at C (4, stray)
check_schema refused sheet 1, the schema (ends.schema): {because}
mend: let both sides start at one node and end at one node
"
    ));
    // One node, a link from node 0 to node 9.
    folder.write("missing.sheet", hex("08 20 00 24"));
    folder.sheet("check schema missing.sheet").refused(&format!(
        "missing.sheet: link 0 leads to node 9, but the nodes are 0 to 0 (4, stray)
check_schema refused sheet 1, the schema (missing.sheet): {because}
mend: correct the link or add the node
"
    ));
    // The path from B along link 0, which starts at A.
    folder.write("good.schema", lines(&schema[..5]));
    folder.write("astray.sheet", hex("11 00"));
    folder.run(&["same-path", "good.schema", "sheet:astray.sheet", "B"], b"").refused(&format!(
        "astray.sheet: path B.x has come to B, where link A.x does not start (4, stray)
same-path refused sheet 2, the first path (astray.sheet): {because}
mend: name a node, and links that lead on from it
"
    ));
}

#[test]
fn refusal_5_ring() {
    let folder = Folder::new("refusal-5");
    let schema =
        ["node A", "node B", "node C", "link A.x -> B", "link B.next -> C", "link C.back -> B"];
    folder.write("ring.schema", lines(&schema));
    folder.sheet("pack schema ring.schema").refused(
        "ring.schema line 6: B.next, C.back lead from B back to B (5, ring)
check_schema refused sheet 1, the schema (ring.schema): the edges form a loop
mend: take out one of these links
",
    );
}

#[test]
fn refusal_6_crowd() {
    // Document 01's case 10: a chain of 7 nodes with doubled edges and 9 lone
    // nodes, and one edge between two lone nodes.
    let folder = Folder::new("refusal-6");
    let nodes: String = (0..16).map(|number| format!("node N{number}\n")).collect();
    let chain = (0..6).map(|number| {
        let next = number + 1;
        format!("link N{number}.a -> N{next}\nlink N{number}.b -> N{next}\n")
    });
    let full = nodes + &chain.collect::<String>();
    folder.write("full.schema", &full);
    folder
        .sheet("check schema full.schema")
        .printed("accepted: nodes 16, links 12, columns 0, equations 0, paths 256\n");
    folder.write("crowd.schema", full + "link N7.c -> N8\n");
    folder.sheet("check schema crowd.schema").refused(
        "crowd.schema: 257 paths (16 trivial ones counted), 127 of them from N0; at most 256 (6, crowd)
check_schema refused sheet 1, the schema (crowd.schema): more than 256 paths
mend: take out links or tables; an equation does not make the paths fewer
",
    );
}

#[test]
fn refusal_7_misfit() {
    let folder = Folder::with_example("refusal-7", "base");
    let because = misfit("T");
    let text = String::from_utf8(folder.read("vendor-to-operator.mapping")).unwrap();
    let check =
        |name: &str| folder.sheet(&format!("check mapping vendor.schema operator.schema {name}"));
    folder
        .write("end.mapping", text.replace("Dent.joint -> Anomaly.joint", "Dent.joint -> Anomaly"));
    check("end.mapping").refused(&format!(
        "end.mapping line 4: Dent.joint goes to Anomaly, which ends at Anomaly, but Joint goes to Joint (7, misfit)
check_mapping refused sheet 3, the mapping (end.mapping): {because}
mend: send Dent.joint to a path from Anomaly to Joint
"
    ));
    folder.write("missing.sheet", hex("05 01 00 80 00"));
    check("missing.sheet").refused(&format!(
        "missing.sheet: Joint goes to node 5, but the nodes of T are 0 to 1 (7, misfit)
check_mapping refused sheet 3, the mapping (missing.sheet): {because}
mend: send Joint to a node of T
"
    ));
    folder.write(
        "depth.schema",
        lines(&["node A", "column A.depth : depth", "column A.wall : wall"]),
    );
    folder.write("kind.mapping", lines(&["A -> A", "A.depth -> A.wall", "A.wall -> A.wall"]));
    folder.sheet("check mapping depth.schema depth.schema kind.mapping").refused(&format!(
        "kind.mapping line 2: A.depth is of kind depth, but A.wall of kind wall (7, misfit)
check_mapping refused sheet 3, the mapping (kind.mapping): {because}
mend: send A.depth to a column of kind depth at A
"
    ));
}

#[test]
fn refusal_8_broken_rule() {
    let folder = Folder::new("refusal-8");
    let free = ["node A", "node B", "link A.x -> B", "link A.y -> B"];
    folder.write("free.schema", lines(&free));
    folder.write("ruled.schema", lines(&free) + "equation A.x = A.y\n");
    folder.write("same.mapping", lines(&["A -> A", "B -> B", "A.x -> A.x", "A.y -> A.y"]));
    folder.sheet("check mapping ruled.schema free.schema same.mapping").refused(
        "ruled.schema line 5: equation A.x = A.y goes to A.x = A.y, which are unequal in T (8, broken rule)
  equal to A.x in T: no other path
  equal to A.y in T: no other path
check_mapping refused sheet 3, the mapping (same.mapping): an equation of S has unequal images in T
mend: send the links to other paths, or state `equation A.x = A.y` in free.schema
",
    );
}

/// What each image is equal to, some paths and more than are shown; an equation
/// whose images are equal is no cause.
#[test]
fn refusal_8_broken_rule_with_what_the_images_are_equal_to() {
    let folder = Folder::new("refusal-8-equal");
    let free = ["node X", "node Y", "link X.p -> Y", "link X.q -> Y", "link X.r -> Y"];
    folder.write("ruled.schema", lines(&free) + "equation X.r = X.p\nequation X.p = X.q\n");
    folder.write(
        "many.schema",
        lines(&["node A", "node B"]) + &equal_links("l", 8) + &equal_links("m", 4),
    );
    let images = ["X -> A", "Y -> B", "X.p -> A.m1", "X.q -> A.l2", "X.r -> A.m3"];
    folder.write("to.mapping", lines(&images));
    folder.sheet("check mapping ruled.schema many.schema to.mapping").refused(
        "ruled.schema line 7: equation X.p = X.q goes to A.m1 = A.l2, which are unequal in T (8, broken rule)
  equal to A.m1 in T: A.m0, A.m2, A.m3
  equal to A.l2 in T: A.l0, A.l1, A.l3, A.l4, A.l5 and 2 more
check_mapping refused sheet 3, the mapping (to.mapping): an equation of S has unequal images in T
mend: send the links to other paths, or state `equation A.m1 = A.l2` in many.schema
",
    );
}

#[test]
fn refusal_9_dangling() {
    let folder = Folder::with_example("refusal-9", "base");
    folder.write("run/Dent.csv", "row,joint,station\n0,1,700\n1,0,300\n2,1,305\n3,9,306\n");
    folder.sheet(&format!("sigma {MAPPED} run")).refused(
        "run/Dent.csv row 3: joint 9, but Joint has 2 rows (9, dangling)
sigma refused sheet 4, the run (run): a target row at or beyond its table's count
mend: let joint name a row from 0 to 1, or add rows to Joint
",
    );
    folder.sheet("pack --unchecked instance vendor.schema run -o run.sheet").silent();
    folder.sheet(&format!("sigma {MAPPED} run.sheet")).refused(
        "run.sheet, Dent row 3: joint 9, but Joint has 2 rows (9, dangling)
sigma refused sheet 4, the run (run.sheet): a target row at or beyond its table's count
mend: let joint name a row from 0 to 1, or add rows to Joint
",
    );
    folder.write("book/Joint.csv", "row\n");
    folder.sheet(&format!("delta {MAPPED} book")).refused(
        "book/Anomaly.csv row 0: joint 0, but Joint has 0 rows (9, dangling)
book/Anomaly.csv row 1: joint 1, but Joint has 0 rows (9, dangling)
book/Anomaly.csv row 2: joint 1, but Joint has 0 rows (9, dangling)
delta refused sheet 4, the book (book): a target row at or beyond its table's count
mend: add the rows of Joint
",
    );
}

#[test]
fn refusal_10_off_scale() {
    let folder = Folder::new("refusal-10");
    folder.write("clock.schema", "node Weld\ncolumn Weld.seam : clock\n");
    folder.write("run/Weld.csv", "row,seam\n0,1\n1,720\n");
    folder.sheet("check instance clock.schema run").printed("accepted: rows 2 (Weld 2)\n");
    folder.write("run/Weld.csv", "row,seam\n0,720\n1,721\n2,0\n");
    folder.sheet("check instance clock.schema run").refused(
        "run/Weld.csv row 1: seam 721, but the kind clock runs from 1 to 720 (10, off scale)
run/Weld.csv row 2: seam 0: twelve o'clock is written 720 (10, off scale)
check_instance refused sheet 2, the instance (run): a value below its kind's smallest or above its largest
mend: correct seam to 1 to 720 (in minutes)
",
    );
    let rows: String = (0..7).map(|row| format!("{row},{}\n", 800 + row)).collect();
    folder.write("run/Weld.csv", format!("row,seam\n{rows}"));
    let told = folder.sheet("check instance clock.schema run").err();
    assert!(told.contains("run/Weld.csv row 4: seam 804"));
    assert!(told.contains("and 2 more like these\n"));
    folder.write("flag.schema", "node Weld\ncolumn Weld.shop : flag\n");
    folder.write("run/Weld.csv", "row,shop\n0,0\n1,1\n2,2\n");
    folder.sheet("check instance flag.schema run").refused(
        "run/Weld.csv row 2: shop 2, but the kind flag runs from 0 to 1 (10, off scale)
check_instance refused sheet 2, the instance (run): a value below its kind's smallest or above its largest
mend: correct shop to 0 to 1
",
    );
}

/// Twelve o'clock as it was written before, in tables and in a sheet of them.
#[test]
fn refusal_10_twelve_oclock() {
    let folder = Folder::new("refusal-10-twelve");
    folder.write("weld.schema", "node Weld\ncolumn Weld.clock : clock\n");
    folder.write("run/Weld.csv", "row,clock\n0,14\n1,0\n");
    let told = |file: &str, place: &str| {
        format!(
            "{place} row 1: clock 0: twelve o'clock is written 720 (10, off scale)
check_instance refused sheet 2, the instance ({file}): a value below its kind's smallest or above its largest
mend: write clock 0 as 720
"
        )
    };
    folder.sheet("check instance weld.schema run").refused(&told("run", "run/Weld.csv"));
    folder
        .sheet("pack instance weld.schema run -o run.sheet")
        .refused(&told("run", "run/Weld.csv"));
    folder.sheet("pack --unchecked instance weld.schema run -o run.sheet").silent();
    let of_sheet = told("run.sheet", "run.sheet, Weld");
    folder.sheet("show instance weld.schema run.sheet").refused(&of_sheet);
}

#[test]
fn refusal_11_bent_row() {
    let folder = Folder::with_example("refusal-11", "book");
    let text = String::from_utf8(folder.read("run/Metal_Loss.csv")).unwrap();
    folder.write("run/Metal_Loss.csv", text.replace("\n3,35,35,", "\n3,35,36,"));
    folder.sheet("check instance vendor.schema run").refused(
        "run/Metal_Loss.csv row 3: Metal_Loss.spool.weld leads to Girth_Weld row 35, but Metal_Loss.weld to row 36 (11, bent row)
check_instance refused sheet 2, the instance (run): a row where the two sides of an equation lead to different rows
mend: let both lead to one row of Girth_Weld, as equation Metal_Loss.spool.weld = Metal_Loss.weld asks (vendor.schema line 39)
",
    );
}

#[test]
fn the_first_sheet_sent_back_is_told_before_later_files_are_read() {
    let folder = Folder::with_example("refusal-order", "base");
    folder.write("short.sheet", hex("10 21"));
    folder.write("bad.mapping", "nonsense\n");
    folder.sheet("sigma vendor.schema short.sheet bad.mapping nowhere").refused(
        "short.sheet: the sheet ends after 2 bytes, inside the leading counts (1, cut)
sigma refused sheet 2, schema T (short.sheet): the bits end before the last field does
mend: lend the whole sheet
",
    );
}
