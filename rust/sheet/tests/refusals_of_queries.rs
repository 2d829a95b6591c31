//! What the query refuses: the sheet by its place and file, or the stage whose
//! mapping or result it is; each met by an example whose message is compared.

mod common;

use common::{bare_rows, hex, lines, misfit, Folder, DIG_MAPPINGS, DIG_SCHEMAS};

/// A copy of the dig example with one file changed by replacing a text.
fn changed(name: &str, file: &str, from: &str, to: &str) -> Folder {
    let folder = Folder::with_example(name, "dig");
    let text = String::from_utf8(folder.read(file)).unwrap();
    assert!(text.contains(from), "{from}");
    folder.write(file, text.replace(from, to));
    folder
}

fn query(folder: &Folder) -> common::Ran {
    folder.sheet(&format!("query {DIG_SCHEMAS} {DIG_MAPPINGS} run"))
}

#[test]
fn schemas_at_places_1_to_4() {
    let folder = Folder::with_example("query-schemas", "dig");
    folder.write("short.sheet", hex("10 21"));
    let schemas: Vec<&str> = DIG_SCHEMAS.split(' ').collect();
    for place in 1..=4 {
        // The files after it are not read.
        let mut words = ["nowhere"; 8];
        words[..place - 1].copy_from_slice(&schemas[..place - 1]);
        words[place - 1] = "short.sheet";
        folder.sheet(&format!("query {}", words.join(" "))).refused(&format!(
            "short.sheet: the sheet ends after 2 bytes, inside the leading counts (1, cut)
query refused sheet {place}, schema S{place} (short.sheet): the bits end before the last field does
mend: lend the whole sheet
"
        ));
    }
    let folder = changed(
        "query-ring",
        "joined.schema",
        "link Loss_Dig.section -> Section",
        "link Section.first -> Dent_Dig",
    );
    query(&folder).refused(
        "joined.schema line 9: Dent_Dig.section, Section.first lead from Dent_Dig back to Dent_Dig (5, ring)
query refused sheet 3, schema S3 (joined.schema): the edges form a loop
mend: take out one of these links
",
    );
}

#[test]
fn mappings_at_places_5_to_7() {
    let folder = changed(
        "query-misfit",
        "needed-to-vendor.mapping",
        "Dent_Joint.section -> Spool.weld.section",
        "Dent_Joint.section -> Spool.weld",
    );
    query(&folder).refused(&format!(
        "needed-to-vendor.mapping line 9: Dent_Joint.section goes to Spool.weld, which ends at Girth_Weld, but Section goes to Section (7, misfit)
query refused sheet 5, mapping F (needed-to-vendor.mapping): {}
mend: send Dent_Joint.section to a path from Spool to Section
",
        misfit("S1")
    ));
    let folder = Folder::with_example("query-missing", "dig");
    folder
        .sheet("pack mapping needed.schema joined.schema needed-to-joined.mapping -o g.sheet")
        .silent();
    let mut sheet = folder.read("g.sheet");
    sheet[0] = 0x50; // the first node to node 5
    folder.write("g.sheet", &sheet);
    let [f, h] = ["needed-to-vendor.mapping", "joined-to-digs.mapping"];
    folder.sheet(&format!("query {DIG_SCHEMAS} {f} g.sheet {h} run")).refused(&format!(
        "g.sheet: Dent goes to node 5, but the nodes of S3 are 0 to 2 (7, misfit)
query refused sheet 6, mapping G (g.sheet): {}
mend: send Dent to a node of S3
",
        misfit("S3")
    ));
    folder.write("h.sheet", hex("00"));
    let g = "needed-to-joined.mapping";
    folder.sheet(&format!("query {DIG_SCHEMAS} {f} {g} h.sheet run")).refused(
        "h.sheet: the sheet ends after 1 byte, inside the image of Section (1, cut)
query refused sheet 7, mapping H (h.sheet): the bits end before the last field does
mend: lend the whole sheet; or lend the schema that it was packed for
",
    );
}

#[test]
fn a_rule_that_a_mapping_breaks() {
    let folder = Folder::new("query-rule");
    let free = ["node A", "node B", "link A.x -> B", "link A.y -> B"];
    folder.write("free.schema", lines(&free));
    folder.write("ruled.schema", lines(&free) + "equation A.x = A.y\n");
    folder.write("same.mapping", lines(&["A -> A", "B -> B", "A.x -> A.x", "A.y -> A.y"]));
    let same = "same.mapping same.mapping same.mapping run";
    folder.sheet(&format!("query ruled.schema ruled.schema ruled.schema free.schema {same}")).refused(
        "ruled.schema line 5: equation A.x = A.y goes to A.x = A.y, which are unequal in S4 (8, broken rule)
  equal to A.x in S4: no other path
  equal to A.y in S4: no other path
query refused sheet 7, mapping H (same.mapping): an equation of S3 has unequal images in S4
mend: send the links to other paths, or state `equation A.x = A.y` in free.schema
",
    );
    let told =
        folder.sheet(&format!("query free.schema ruled.schema ruled.schema free.schema {same}"));
    assert!(told.err().contains("which are unequal in S1 (8, broken rule)"), "{}", told.err());
    let because = "an equation of S2 has unequal images in S1";
    let refused = format!("\nquery refused sheet 5, mapping F (same.mapping): {because}\n");
    assert!(told.err().contains(&refused), "{}", told.err());
    assert_eq!(told.status(), 1);
}

#[test]
fn the_run_at_place_8() {
    let folder = changed("query-run", "run/Dent.csv", "3,7,12490150", "3,77,12490150");
    query(&folder).refused(
        "run/Dent.csv row 3: spool 77, but Spool has 11 rows (9, dangling)
query refused sheet 8, the run (run): a target row at or beyond its table's count
mend: let spool name a row from 0 to 10, or add rows to Spool
",
    );
    let folder = changed("query-clock", "run/Dent.csv", ",720,", ",0,");
    query(&folder).refused(
        "run/Dent.csv row 0: clock 0: twelve o'clock is written 720 (10, off scale)
query refused sheet 8, the run (run): a value below its kind's smallest or above its largest
mend: write clock 0 as 720
",
    );
    folder.write("run/Section.csv", "row,number\n0,31O\n");
    query(&folder).bad(
        "run/Section.csv line 2: number is `31O`; expected a whole number from 0 to 4294967295\n",
    );
}

#[test]
fn refusal_13_unpaired_is_of_g() {
    let folder = changed(
        "query-13",
        "needed-to-joined.mapping",
        "Loss_Marker.station -> Loss_Dig.marker_station",
        "Loss_Marker.station -> Loss_Dig.station",
    );
    query(&folder).refused(
        "needed-to-joined.mapping line 32: Loss.station and Loss_Marker.station both go to Loss_Dig.station (13, unpaired)
needed-to-joined.mapping: no column of S2 goes to Loss_Dig.marker_station (13, unpaired)
query refused, place 0 (Pi along G): Pi, and the attribute mapping is not a bijection
mend: send each column to a column of its own
",
    );
    // A column too many in S3: H, which leaves it out, is judged later.
    let folder = changed(
        "query-13-none",
        "joined.schema",
        "column Section.number : identifier",
        "column Section.number : identifier\ncolumn Section.length : length",
    );
    let mapping = String::from_utf8(folder.read("joined-to-digs.mapping")).unwrap();
    folder.write("joined-to-digs.mapping", mapping + "Section.length -> Section.length\n");
    let digs = String::from_utf8(folder.read("digs.schema")).unwrap();
    folder.write("digs.schema", digs + "column Section.length : length\n");
    query(&folder).refused(
        "needed-to-joined.mapping: no column of S2 goes to Section.length (13, unpaired)
query refused, place 0 (Pi along G): Pi, and the attribute mapping is not a bijection
mend: send a column of S2 to Section.length, or leave it out of S3
",
    );
}

#[test]
fn refusal_14_wide_is_of_g() {
    let folder = Folder::new("query-14");
    let nodes: String = (0..7).map(|number| format!("node N{number}\n")).collect();
    let chain = (0..6).map(|number| {
        let next = number + 1;
        format!("link N{number}.a -> N{next}\nlink N{number}.b -> N{next}\n")
    });
    folder.write("chain.schema", nodes + &chain.collect::<String>());
    folder.write("pair.schema", "node A\nnode B\n");
    folder.write("same.mapping", "A -> A\nB -> B\n");
    folder.write("wide.mapping", "A -> N6\nB -> N6\n");
    let links =
        (0..6).flat_map(|number| ["a", "b"].map(|link| format!("N{number}.{link} -> One\n")));
    let images: String = (0..7).map(|number| format!("N{number} -> One\n")).chain(links).collect();
    folder.write("one.schema", "node One\n");
    folder.write("one.mapping", images);
    folder.write("run/A.csv", bare_rows(1));
    folder.write("run/B.csv", bare_rows(1));
    // H is uneven, which is judged later.
    let schemas = "pair.schema pair.schema chain.schema one.schema";
    folder.sheet(&format!("query {schemas} same.mapping wide.mapping one.mapping run")).refused(
        "wide.mapping: N0 has 128 components, at most 64 (14, wide)
query refused, place 0 (Pi along G): Pi, and a table has more than 64 components
mend: send fewer nodes of S2 to where many paths of S3 lead, or equate paths of S3
",
    );
}

#[test]
fn refusal_12_uneven_is_of_h() {
    let because = "Sigma, a change, a checker or transposition, and the mapping is not even";
    let folder = changed(
        "query-12",
        "digs.schema",
        "link Dig.section -> Section",
        "link Dig.section -> Section\nlink Dig.next -> Section",
    );
    query(&folder).refused(&format!(
        "joined-to-digs.mapping line 3: no path from Dent_Dig goes to Dig.next of S4 (12, uneven)
  equal to Dig.next in S4: no other path
joined-to-digs.mapping line 12: no path from Loss_Dig goes to Dig.next of S4 (12, uneven)
  equal to Dig.next in S4: no other path
query refused, place 0 (Sigma along H): {because}
mend: add a link to Dent_Dig in joined.schema and send it there, or take Dig.next out of S4
"
    ));
    let folder = changed(
        "query-12-columns",
        "digs.schema",
        "column Dig.wall : wall",
        "column Dig.wall : wall\ncolumn Dig.clock : clock",
    );
    // The list would be overfull too, which is judged later.
    let markers: String = (0..200).map(|row| format!("{row},4,{row},0\n")).collect();
    folder.write("run/Marker.csv", format!("row,weld,number,station\n{markers}"));
    query(&folder).refused(&format!(
        "joined-to-digs.mapping line 3: no column of Dent_Dig goes to Dig.clock (12, uneven)
joined-to-digs.mapping line 12: no column of Loss_Dig goes to Dig.clock (12, uneven)
query refused, place 0 (Sigma along H): {because}
mend: add a column of kind clock to Dent_Dig in joined.schema and send it to Dig.clock
"
    ));
}

#[test]
fn refusal_12_uneven_by_steps_in_s4() {
    let folder = Folder::new("query-12-steps");
    let free = ["node A", "node B", "link A.x -> B", "link A.y -> B"];
    folder.write("free.schema", lines(&free));
    folder.write("ruled.schema", lines(&free) + "equation A.x = A.y\n");
    folder.write("same.mapping", lines(&["A -> A", "B -> B", "A.x -> A.x", "A.y -> A.y"]));
    folder.write("run/A.csv", "row,x,y\n");
    folder.write("run/B.csv", "row\n");
    let same = "same.mapping same.mapping same.mapping run";
    folder.sheet(&format!("query free.schema free.schema free.schema ruled.schema {same}")).refused(
        "same.mapping line 1: A.x and A.y both go to A.x of S4, but are unequal in S3 (12, uneven)
  A.y goes to A.y, equal to A.x in S4 by 1 step
    1  A.[y] = A.[x]  equation 0, right to left (ruled.schema line 5)
  equal to A.x in S3: no other path
  equal to A.y in S3: no other path
query refused, place 0 (Sigma along H): Sigma, a change, a checker or transposition, and the mapping is not even
mend: state `equation A.x = A.y` in free.schema, or send one of them elsewhere
",
    );
}

#[test]
fn refusal_15_overfull_is_of_delta_or_of_pi() {
    let folder = Folder::with_example("query-15", "dig");
    let spools: String = (0..300).map(|row| format!("{row},4,{row},950\n")).collect();
    let markers: String = (0..200).map(|row| format!("{row},4,{row},0\n")).collect();
    let few = folder.read("run/Spool.csv");
    folder.write("run/Spool.csv", format!("row,weld,number,wall\n{spools}"));
    query(&folder).refused(
        "run: pulled back by Delta along F it has 627 rows (Dent 5 as Dent, Dent_Joint 300 as Spool, \
         Dent_Marker 5 as Marker, Loss 7 as Metal_Loss, Loss_Joint 300 as Spool, Loss_Marker 5 as Marker, \
         Section 5 as Section), at most 512 (15, overfull)
query refused, place 0 (Delta along F): a migrated instance, or a run with an added row, has more than 512 rows
mend: lend a run with fewer rows in the tables that are copied several times
",
    );
    folder.write("run/Spool.csv", few);
    folder.write("run/Marker.csv", format!("row,weld,number,station\n{markers}"));
    query(&folder).refused(
        "run, joined by Pi along G: a row of Loss_Dig is a fitting choice of one row each from \
         Loss (7 rows), Loss_Marker (200 rows): up to 1400 rows, at most 512 in all tables (15, overfull)
  Delta along F gives it 439 rows (Dent 5, Dent_Joint 11, Dent_Marker 200, Loss 7, Loss_Joint 11, Loss_Marker 200, Section 5)
  Pi along G makes of them at most: Dent_Dig 1000, Loss_Dig 1400, Section 5
query refused, place 0 (Pi along G): a migrated instance, or a run with an added row, has more than 512 rows
mend: lend a run with fewer rows in the tables that these are copies of
",
    );
}

#[test]
fn refusal_16_small_tray_is_of_the_whole() {
    let folder = Folder::with_example("query-16", "dig");
    let lent = format!("{DIG_SCHEMAS} {DIG_MAPPINGS} run");
    folder.sheet(&format!("query --tray 349 {lent} -o made.sheet")).refused(
        "the tray: the result needs 350 bytes, but 349 were lent (16, small tray)
query refused, place 0: a result needs more bytes than were lent
mend: lend 350 bytes; 51220 hold every result
",
    );
    assert!(!folder.join("made.sheet").exists());
    folder.sheet(&format!("query --tray 350 {lent} -o made.sheet")).silent();
    assert_eq!(folder.read("made.sheet").len(), 350);
}
