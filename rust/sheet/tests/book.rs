//! The book example: its data are what its generator makes, Sigma accepts the
//! run, and the list is a matching between the pushed run and the book.

mod common;

use common::{example, names_in, Folder, MAPPED};
use std::fs;

#[path = "../examples/make_book.rs"]
#[allow(dead_code)]
mod make_book;

#[test]
fn the_data_are_what_the_generator_makes() {
    let folder = Folder::new("book-made");
    for name in MAPPED.split(' ') {
        folder.write(name, fs::read(example("book").join(name)).unwrap());
    }
    make_book::make(folder.path()).unwrap();
    for part in ["run", "book"] {
        assert_eq!(names_in(&folder.join(part)), names_in(&example("book").join(part)));
        for name in names_in(&folder.join(part)) {
            let made = folder.read(&format!("{part}/{name}"));
            assert_eq!(made, fs::read(example("book").join(part).join(&name)).unwrap(), "{name}");
        }
    }
    for name in ["pushed.csv", "raw.csv"] {
        assert_eq!(folder.read(name), fs::read(example("book").join(name)).unwrap(), "{name}");
    }
}

#[test]
fn sigma_accepts_the_run_and_the_list_is_a_matching() {
    let folder = Folder::with_example("book-matched", "book");
    let checked = folder.sheet(&format!("check mapping {MAPPED}"));
    assert!(checked.out().starts_with("accepted\nsigma, match and turn: taken\n"));
    folder.sheet(&format!("sigma {MAPPED} run -o pushed")).silent();
    folder
        .sheet("check instance operator.schema pushed")
        .printed("accepted: rows 378 (Anomaly 79, Joint 146, Weld 147, Section 6)\n");
    folder
        .sheet("check instance operator.schema book")
        .printed("accepted: rows 403 (Anomaly 104, Joint 146, Weld 147, Section 6)\n");
    folder
        .sheet(&format!("match pushed {MAPPED} run book pushed.csv"))
        .printed("accepted: a matching of 378 rows, from the pushed run to the book\n");
    folder
        .sheet(&format!("match raw {MAPPED} run book raw.csv"))
        .printed("accepted: a matching of 378 rows, from the run to the pulled back book\n");
    folder
        .sheet(&format!("turn pushed-to-raw {MAPPED} run book pushed.csv -o turned.csv"))
        .silent();
    assert_eq!(folder.read("turned.csv"), folder.read("raw.csv"));
    folder.sheet(&format!("turn raw-to-pushed {MAPPED} run book turned.csv -o back.csv")).silent();
    assert_eq!(folder.read("back.csv"), folder.read("pushed.csv"));
}

#[test]
fn the_equations_matter() {
    let folder = Folder::with_example("book-equations", "book");
    let without = |name: &str| -> String {
        let text = String::from_utf8(folder.read(name)).unwrap();
        let kept = text.lines().filter(|line| !line.starts_with("equation"));
        kept.map(|line| format!("{line}\n")).collect()
    };
    folder.write("free-operator.schema", without("operator.schema"));
    folder.write("free-vendor.schema", without("vendor.schema"));
    folder.sheet("sigma vendor.schema free-operator.schema vendor-to-operator.mapping run").refused(
        "vendor.schema line 39: equation Metal_Loss.spool.weld = Metal_Loss.weld goes to \
         Anomaly.joint.upstream = Anomaly.reference, which are unequal in T (8, broken rule)
  equal to Anomaly.joint.upstream in T: no other path
  equal to Anomaly.reference in T: no other path
sigma refused sheet 3, the mapping (vendor-to-operator.mapping): an equation of S has unequal images in T
mend: send the links to other paths, or state `equation Anomaly.joint.upstream = Anomaly.reference` in free-operator.schema
",
    );
    let free = "free-vendor.schema free-operator.schema vendor-to-operator.mapping";
    let told = folder.sheet(&format!("sigma {free} run"));
    assert!(told.err().starts_with(
        "vendor-to-operator.mapping line 3: no path from Dent goes to Anomaly.reference of T (12, uneven)\n  \
         equal to Anomaly.reference in T: no other path\n"
    ));
    assert_eq!(told.status(), 1);
    folder.sheet("sigma free-vendor.schema operator.schema vendor-to-operator.mapping run").refused(
        "vendor-to-operator.mapping line 11: Metal_Loss.weld and Metal_Loss.spool.weld both go to \
         Anomaly.reference of T, but are unequal in S (12, uneven)
  Metal_Loss.spool.weld goes to Anomaly.joint.upstream, equal to Anomaly.reference in T by 1 step
    1  Anomaly.[joint.upstream] = Anomaly.[reference]  equation 0, left to right (operator.schema line 29)
  equal to Metal_Loss.weld in S: no other path
  equal to Metal_Loss.spool.weld in S: no other path
sigma refused, place 0: Sigma, a change, a checker or transposition, and the mapping is not even
mend: state `equation Metal_Loss.weld = Metal_Loss.spool.weld` in free-vendor.schema, or send one of them elsewhere
",
    );
}

#[test]
fn the_dent_with_metal_loss_is_one_anomaly_of_the_book() {
    let folder = Folder::with_example("book-twice", "book");
    let text = String::from_utf8(folder.read("pushed.csv")).unwrap();
    let partners = text.lines().filter_map(|line| line.strip_prefix("Anomaly,"));
    let mut partners: Vec<&str> = partners.filter_map(|line| line.split(',').nth(1)).collect();
    assert_eq!(partners.len(), 79);
    partners.sort();
    partners.dedup();
    assert_eq!(partners.len(), 78);
}
