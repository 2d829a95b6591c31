//! The calls on document 01's base example, and on its case 7: both forms agree,
//! a refused call changes no lent byte, and bytes beyond the result keep their
//! values; so do those beyond both results of a change.

use migration::*;

const S: [u8; 7] = [0x18, 0x42, 0x00, 0x04, 0x84, 0x04, 0x84];
const T: [u8; 5] = [0x10, 0x21, 0x00, 0x04, 0x04];
const F: [u8; 5] = [0x01, 0x01, 0x00, 0x80, 0x00];
/// T to itself, everything to itself.
const SAME: [u8; 3] = [0x01, 0x10, 0x00];
const RUN: [u8; 20] = [
    0x00, 0x80, 0x20, 0x04, 0x02, 0x00, 0x00, 0x80, 0x00, 0x01, //
    0x5E, 0x00, 0x00, 0x00, 0x96, 0x00, 0x00, 0x01, 0x60, 0x80,
];
const BOOK: [u8; 18] = [
    0x00, 0xC0, 0x20, 0x00, 0x04, 0x02, 0x00, 0x00, 0x02, //
    0x58, 0x00, 0x00, 0x05, 0x82, 0x00, 0x00, 0x05, 0x78,
];
const PUSHED: [u8; 6] = [0x01, 0x00, 0x00, 0x20, 0x00, 0x08];
const RAW: [u8; 6] = [0x01, 0x00, 0x00, 0x00, 0x10, 0x08];

/// Case 7: edges a 0 to 1, b 1 to 3, c 0 to 2, d 2 to 3, f 3 to 4, and ab = cd.
const RULED: [u8; 13] =
    [0x28, 0xA0, 0x04, 0x04, 0x4C, 0x08, 0x8C, 0xD0, 0x08, 0x01, 0x02, 0x10, 0xC0];
/// Case 8: the same without the equation.
const FREE: [u8; 8] = [0x28, 0xA0, 0x00, 0x04, 0x4C, 0x08, 0x8C, 0xD0];
const AB: [u8; 3] = [0x02, 0x00, 0x40];
const CD: [u8; 3] = [0x02, 0x10, 0xC0];
const ABF: [u8; 3] = [0x03, 0x00, 0x48];
const CDF: [u8; 3] = [0x03, 0x10, 0xC8];
/// The trivial path at the last node.
const LAST: [u8; 1] = [0x40];

/// Dents, losses and joints of S; to them pairs of a dent and a loss at one joint; dents
/// and losses in one table, with the pairs.
const S2: [u8; 7] = [0x18, 0x42, 0x00, 0x08, 0x48, 0x04, 0x44];
const S3: [u8; 14] =
    [0x20, 0x82, 0x04, 0x08, 0x48, 0xC0, 0xC4, 0x04, 0x44, 0xC8, 0x40, 0x32, 0x18, 0x40];
const S4: [u8; 12] = [0x18, 0x61, 0x04, 0x04, 0x80, 0x80, 0x04, 0x88, 0x20, 0x22, 0x10, 0x00];
const F2: [u8; 5] = [0x02, 0x11, 0x00, 0x84, 0x04];
const G: [u8; 5] = [0x01, 0x21, 0x00, 0x84, 0x04];
const H: [u8; 8] = [0x00, 0x12, 0x10, 0x08, 0x04, 0x22, 0x20, 0x00];
/// Anomalies 700, 300, 705 at joints 1, 0, 1 of 2; anomalies 0 and 2 are a pair.
const DUG: [u8; 22] = [
    0x00, 0xC0, 0x20, 0x04, 0x02, 0x00, 0x00, 0x80, 0x00, 0x40, 0x00, //
    0x00, 0x57, 0x80, 0x00, 0x00, 0x25, 0x80, 0x00, 0x00, 0x58, 0x20,
];

/// A call that fills a tray.
type Fill<'a> = &'a dyn Fn(&mut [u8]) -> Result<usize, Refusal>;

fn refused<T>(number: u8, place: u8) -> Result<T, Refusal> {
    Err(Refusal { number, place })
}

/// The form with a tray gives what the other form gives, in every tray that
/// holds it, and 16 in every smaller one.
fn forms_agree(whole: Result<Vec<u8>, Refusal>, fill: Fill) {
    let sheet = whole.unwrap();
    for size in 0..sheet.len() + 3 {
        let mut tray = vec![0xEE; size];
        let filled = fill(&mut tray);
        if size < sheet.len() {
            assert_eq!(filled, refused(16, 0));
            assert!(tray.iter().all(|&byte| byte == 0xEE));
        } else {
            assert_eq!(filled, Ok(sheet.len()));
            assert_eq!(tray[..sheet.len()], sheet[..]);
            assert!(tray[sheet.len()..].iter().all(|&byte| byte == 0xEE));
        }
    }
}

#[test]
fn both_forms_of_each_call_agree() {
    forms_agree(delta(&S, &T, &F, &BOOK), &|tray| delta_into(&S, &T, &F, &BOOK, tray));
    forms_agree(sigma(&S, &T, &F, &RUN), &|tray| sigma_into(&S, &T, &F, &RUN, tray));
    forms_agree(pi(&T, &T, &SAME, &BOOK), &|tray| pi_into(&T, &T, &SAME, &BOOK, tray));
    forms_agree(pushed_to_raw(&S, &T, &F, &RUN, &BOOK, &PUSHED), &|tray| {
        pushed_to_raw_into(&S, &T, &F, &RUN, &BOOK, &PUSHED, tray)
    });
    forms_agree(raw_to_pushed(&S, &T, &F, &RUN, &BOOK, &RAW), &|tray| {
        raw_to_pushed_into(&S, &T, &F, &RUN, &BOOK, &RAW, tray)
    });
}

#[test]
fn both_forms_agree_on_a_query() {
    let whole = query(&S, &S2, &S3, &S4, &F2, &G, &H, &RUN);
    assert_eq!(whole, Ok(DUG.to_vec()));
    forms_agree(whole, &|tray| query_into(&S, &S2, &S3, &S4, &F2, &G, &H, &RUN, tray));
}

/// A query gives what its three migrations give, one after the other.
#[test]
fn a_query_is_its_three_migrations() {
    let projected = delta(&S2, &S, &F2, &RUN).unwrap();
    let joined = pi(&S2, &S3, &G, &projected).unwrap();
    assert_eq!(sigma(&S3, &S4, &H, &joined), Ok(DUG.to_vec()));
}

/// The place of each sheet of a query; of two that are damaged the earlier is told.
#[test]
fn each_place_of_a_query_is_told() {
    let sheets: [&[u8]; 8] = [&S, &S2, &S3, &S4, &F2, &G, &H, &RUN];
    let ask = |sheets: [&[u8]; 8]| {
        let [s1, s2, s3, s4, f, g, h, run] = sheets;
        query(s1, s2, s3, s4, f, g, h, run)
    };
    for place in 0..8 {
        let (mut cut, mut rest_cut) = (sheets, sheets);
        cut[place] = &[];
        rest_cut[place..].fill(&[]);
        assert_eq!(ask(cut), refused(1, place as u8 + 1));
        assert_eq!(ask(rest_cut), refused(1, place as u8 + 1));
    }
}

/// Two columns of S go to one of T: 13.  Case 4's mapping is uneven: 12.
#[test]
fn what_is_asked_of_g_and_h_is_told() {
    let same_s = [0x01, 0x21, 0x00, 0x84, 0x04];
    assert_eq!(query(&S, &S, &T, &T, &same_s, &F, &SAME, &RUN), refused(13, 0));
    let (edge, same, node, to_node) =
        ([0x10, 0x20, 0x00, 0x04], [0x01, 0x10, 0x00], [0x08, 0x00, 0x00], [0x00, 0x00]);
    let run = [0x00, 0x40, 0x10, 0x00];
    let answer = query(&edge, &edge, &edge, &node, &same, &same, &to_node, &run);
    assert_eq!(answer, refused(12, 0));
}

/// T with welds between anomalies and joints, and a depth before the station; T to it; S
/// to it.
const WELDS: [u8; 7] = [0x18, 0x42, 0x00, 0x04, 0x48, 0x0C, 0x04];
const TO_WELDS: [u8; 4] = [0x02, 0x20, 0x04, 0x40];
const COMPOSED: [u8; 6] = [0x02, 0x02, 0x00, 0x48, 0x01, 0x11];
/// Anomalies 700, 300, 705 of depths 250, 100, 400 at welds 2, 0, 1 of 3; the welds at
/// joints 0, 1, 1 of 2.
const WELDED: [u8; 35] = [
    0x00, 0xC0, 0x30, 0x08, 0x04, 0x00, 0x00, 0x80, 0x00, 0x20, 0x10, //
    0x00, 0x00, 0x0F, 0xA0, 0x00, 0x00, 0x06, 0x40, 0x00, 0x00, 0x19, 0x00, //
    0x00, 0x00, 0x2B, 0xC0, 0x00, 0x00, 0x12, 0xC0, 0x00, 0x00, 0x2C, 0x10,
];

#[test]
fn both_forms_agree_on_a_composed_mapping() {
    let whole = compose(&S, &T, &WELDS, &F, &TO_WELDS);
    assert_eq!(whole, Ok(COMPOSED.to_vec()));
    forms_agree(whole, &|tray| compose_into(&S, &T, &WELDS, &F, &TO_WELDS, tray));
}

/// Along the composed mapping a book is pulled back as along G and then F.
#[test]
fn a_composed_mapping_is_two_in_turn() {
    assert_eq!(check_mapping(&S, &WELDS, &COMPOSED), Ok(()));
    let exchanged = delta(&T, &WELDS, &TO_WELDS, &WELDED).unwrap();
    let in_turn = delta(&S, &T, &F, &exchanged).unwrap();
    assert_eq!(in_turn.len(), 35);
    assert_eq!(delta(&S, &WELDS, &COMPOSED, &WELDED), Ok(in_turn));
}

/// The place of each sheet of a composition; of two that are damaged the earlier is told.
#[test]
fn each_place_of_a_composition_is_told() {
    let sheets: [&[u8]; 5] = [&S, &T, &WELDS, &F, &TO_WELDS];
    let ask = |sheets: [&[u8]; 5]| {
        let [s, t, u, f, g] = sheets;
        compose_into(s, t, u, f, g, &mut [])
    };
    for place in 0..5 {
        let (mut cut, mut rest_cut) = (sheets, sheets);
        cut[place] = &[];
        rest_cut[place..].fill(&[]);
        assert_eq!(ask(cut), refused(1, place as u8 + 1));
        assert_eq!(ask(rest_cut), refused(1, place as u8 + 1));
    }
    assert_eq!(ask(sheets), refused(16, 0));
}

/// The base example's run at the start of a tray, and a pushed tray.
struct Trays {
    run: Vec<u8>,
    length: usize,
    pushed: Vec<u8>,
}

impl Trays {
    fn of(run: usize, pushed: usize) -> Self {
        let behind = vec![0xEE; run - RUN.len()];
        Trays { run: [&RUN[..], &behind].concat(), length: RUN.len(), pushed: vec![0xEE; pushed] }
    }

    fn add(&mut self, table: usize, row: &[u8]) -> Result<Changed, Refusal> {
        let Trays { run, length, pushed } = self;
        let changed = add_row(&S, &T, &F, run, *length, table, row, pushed);
        self.length = changed.map_or(self.length, |changed| changed.run);
        changed
    }

    fn withdraw(&mut self, table: usize, row: usize) -> Result<Changed, Refusal> {
        let Trays { run, length, pushed } = self;
        let changed = withdraw_row(&S, &T, &F, run, *length, table, row, pushed);
        self.length = changed.map_or(self.length, |changed| changed.run);
        changed
    }
}

/// A dent at joint 0, station 500; the run with it, and pushed.
const DENT: [u8; 6] = [0x00, 0x00, 0x00, 0x00, 0xFA, 0x00];
const MORE: [u8; 25] = [
    0x00, 0xC0, 0x20, 0x04, 0x02, 0x00, 0x00, 0x00, 0x40, 0x00, 0x00, 0xAF, 0x00, //
    0x00, 0x00, 0x4B, 0x00, 0x00, 0x00, 0x7D, 0x00, 0x00, 0x00, 0xB0, 0x40,
];
const MORE_PUSHED: [u8; 23] = [
    0x01, 0x00, 0x20, 0x08, 0x00, 0x00, 0x01, 0x00, 0x00, 0x02, 0xBC, 0x00, //
    0x00, 0x01, 0x2C, 0x00, 0x00, 0x01, 0xF4, 0x00, 0x00, 0x02, 0xC1,
];

/// Both trays have the results, and behind them what they had, in every tray that holds
/// them; in a smaller one nothing changes.
#[test]
fn a_row_is_added_in_trays_that_hold_it() {
    for (run, pushed) in (20..28).flat_map(|run| (0..26).map(move |pushed| (run, pushed))) {
        let mut trays = Trays::of(run, pushed);
        let added = trays.add(0, &DENT);
        if run < 25 || pushed < 23 {
            assert_eq!(added, refused(16, 0));
            let before = Trays::of(run, pushed);
            assert_eq!((trays.run, trays.pushed), (before.run, before.pushed));
        } else {
            assert_eq!(added, Ok(Changed { run: 25, pushed: 23 }));
            assert_eq!(trays.run, [&MORE[..], &vec![0xEE; run - 25]].concat());
            assert_eq!(trays.pushed, [&MORE_PUSHED[..], &vec![0xEE; pushed - 23]].concat());
        }
    }
}

/// A dent comes and goes: the run is as it was, and so is what is pushed.
#[test]
fn a_row_that_is_withdrawn_leaves_the_run_as_it_was() {
    let mut trays = Trays::of(30, 30);
    assert_eq!(trays.add(0, &DENT), Ok(Changed { run: 25, pushed: 23 }));
    assert_eq!(trays.withdraw(0, 2), Ok(Changed { run: 20, pushed: 18 }));
    assert_eq!(trays.run[..20], RUN);
    assert_eq!(trays.run[20..25], MORE[20..]); // as the row left them
    assert_eq!(trays.pushed[..18], sigma(&S, &T, &F, &RUN).unwrap());
    assert_eq!(trays.pushed[18..23], MORE_PUSHED[18..]);
    assert!(trays.run[25..].iter().chain(&trays.pushed[23..]).all(|&byte| byte == 0xEE));
}

/// The tests of the change itself have place 0, after the sheets' and after 12.
#[test]
fn each_test_of_a_change_is_told() {
    let mut trays = Trays::of(30, 30);
    assert_eq!(trays.add(3, &DENT), refused(18, 0));
    assert_eq!(trays.add(usize::MAX, &DENT), refused(18, 0));
    assert_eq!(trays.add(0, &DENT[..5]), refused(1, 0));
    assert_eq!(trays.add(0, &[&DENT[..], &[0]].concat()), refused(2, 0));
    assert_eq!(trays.add(0, &[0x01, 0x00, 0x00, 0x00, 0xFA, 0x00]), refused(9, 0)); // joint 2
    assert_eq!(trays.withdraw(3, 0), refused(18, 0));
    assert_eq!(trays.withdraw(0, 2), refused(18, 0));
    assert_eq!(trays.withdraw(1 << 32, 0), refused(18, 0));
    assert_eq!(trays.withdraw(0, 1 << 32), refused(18, 0));
    assert_eq!(trays.withdraw(1, 1), refused(19, 0));
    trays.length = 19;
    assert_eq!(trays.withdraw(1, 1), refused(1, 4));
    trays.length = usize::MAX;
    assert_eq!(trays.withdraw(0, 0), refused(2, 4)); // the bytes behind the run
    let before = Trays::of(30, 30);
    assert_eq!((trays.run, trays.pushed), (before.run, before.pushed));
    let mut whole = Trays { length: usize::MAX, ..Trays::of(20, 18) };
    assert_eq!(whole.withdraw(0, 0), Ok(Changed { run: 14, pushed: 13 }));
    // Case 4's mapping is uneven, which is told before the table.
    let (edge, node, to_node) = ([0x10, 0x20, 0x00, 0x04], [0x08, 0x00, 0x00], [0x00, 0x00]);
    let run = &mut [0x00, 0x40, 0x10, 0x00];
    assert_eq!(add_row(&edge, &node, &to_node, run, 4, 9, &[], &mut [0; 9]), refused(12, 0));
}

/// 512 rows of a table without links and columns, whose rows have the empty sheet.
#[test]
fn a_run_has_at_most_512_rows() {
    let (s, f) = ([0x08, 0x00, 0x00], [0x00]);
    let (mut run, mut pushed) = ([0x7F, 0xC0], [0; 2]);
    let both = Ok(Changed { run: 2, pushed: 2 });
    assert_eq!(add_row(&s, &s, &f, &mut run, 2, 0, &[], &mut pushed), both);
    assert_eq!((run, pushed), ([0x80, 0x00], [0x80, 0x00]));
    assert_eq!(add_row(&s, &s, &f, &mut run, 2, 0, &[], &mut pushed), refused(15, 0));
    assert_eq!(withdraw_row(&s, &s, &f, &mut run, 2, 0, 511, &mut pushed), both);
    assert_eq!((run, pushed), ([0x7F, 0xC0], [0x7F, 0xC0]));
}

#[test]
fn both_forms_agree_on_a_first_path() {
    for p in [&AB[..], &CD, &ABF, &CDF, &LAST] {
        forms_agree(first_path(&RULED, p), &|tray| first_path_into(&RULED, p, tray));
    }
}

/// Two paths are equal exactly where their first paths are the same.
#[test]
fn a_first_path_is_that_of_the_papers() {
    for (p, q) in [(AB, CD), (ABF, CDF)] {
        assert_eq!(first_path(&RULED, &p), Ok(p.to_vec()));
        assert_eq!(first_path(&RULED, &q), Ok(p.to_vec()));
        assert_eq!(first_path(&FREE, &p), Ok(p.to_vec()));
        assert_eq!(first_path(&FREE, &q), Ok(q.to_vec()));
    }
    assert_eq!(first_path(&RULED, &LAST), Ok(LAST.to_vec()));
}

/// The chain from one path to another.
fn chain(s: &[u8], p: &[u8], q: &[u8]) -> Option<Vec<u8>> {
    path_chain(s, p, q).unwrap()
}

#[test]
fn both_forms_agree_on_a_chain() {
    for (p, q) in [(&AB, &CD), (&CD, &AB), (&ABF, &CDF), (&AB, &AB)] {
        forms_agree(path_chain(&RULED, p, q).map(Option::unwrap), &|tray| {
            path_chain_into(&RULED, p, q, tray).map(Option::unwrap)
        });
    }
}

#[test]
fn a_chain_has_the_steps_of_the_papers() {
    assert_eq!(chain(&RULED, &AB, &CD), Some(vec![0x01, 0x00, 0x00]));
    assert_eq!(chain(&RULED, &CD, &AB), Some(vec![0x01, 0x04, 0x00]));
    assert_eq!(chain(&RULED, &ABF, &CDF), Some(vec![0x01, 0x00, 0x00]));
    assert_eq!(chain(&RULED, &AB, &AB), Some(vec![0x00]));
    assert_eq!(chain(&FREE, &AB, &AB), Some(vec![0x00]));
}

/// No chain, whatever the tray, which keeps its bytes: without the equation, and
/// where the ends are others.
#[test]
fn unequal_paths_have_no_chain_and_need_no_tray() {
    for (s, p, q) in [(&FREE[..], &AB, &CD), (&FREE[..], &ABF, &CDF), (&RULED[..], &AB, &CDF)] {
        assert_eq!(chain(s, p, q), None);
        for size in 0..5 {
            let mut tray = vec![0xEE; size];
            assert_eq!(path_chain_into(s, p, q, &mut tray), Ok(None));
            assert!(tray.iter().all(|&byte| byte == 0xEE));
        }
    }
}

#[test]
fn the_base_example_is_accepted() {
    assert_eq!(check_schema(&S), Ok(()));
    assert_eq!(check_mapping(&S, &T, &F), Ok(()));
    assert_eq!(check_instance(&S, &RUN), Ok(()));
    assert_eq!(check_pushed(&S, &T, &F, &RUN, &BOOK, &PUSHED), Ok(()));
    assert_eq!(check_raw(&S, &T, &F, &RUN, &BOOK, &RAW), Ok(()));
    assert_eq!(pushed_to_raw(&S, &T, &F, &RUN, &BOOK, &PUSHED), Ok(RAW.to_vec()));
    assert_eq!(raw_to_pushed(&S, &T, &F, &RUN, &BOOK, &RAW), Ok(PUSHED.to_vec()));
}

#[test]
fn each_place_is_told() {
    let none: [u8; 0] = [];
    assert_eq!(sigma(&none, &T, &F, &RUN), refused(1, 1));
    assert_eq!(sigma(&S, &none, &F, &RUN), refused(1, 2));
    assert_eq!(sigma(&S, &T, &none, &RUN), refused(1, 3));
    assert_eq!(sigma(&S, &T, &F, &none), refused(1, 4));
    assert_eq!(check_pushed(&S, &T, &F, &RUN, &none, &PUSHED), refused(1, 5));
    assert_eq!(check_pushed(&S, &T, &F, &RUN, &BOOK, &none), refused(1, 6));
    assert_eq!(check_pushed(&S, &T, &F, &RUN, &BOOK, &RAW), refused(17, 6));
    assert_eq!(first_path(&none, &AB), refused(1, 1));
    assert_eq!(first_path(&RULED, &none), refused(1, 2));
    assert_eq!(first_path(&RULED, &[0x02, 0x10, 0xD0]), refused(2, 2));
    assert_eq!(first_path(&RULED, &[0x12, 0x00, 0x40]), refused(4, 2));
    assert_eq!(first_path_into(&RULED, &CD, &mut [0; 2]), refused(16, 0));
    assert_eq!(path_chain(&none, &AB, &CD), refused(1, 1));
    assert_eq!(path_chain(&RULED, &none, &CD), refused(1, 2));
    assert_eq!(path_chain(&RULED, &AB, &none), refused(1, 3));
    assert_eq!(path_chain(&RULED, &AB, &[0x02, 0x10, 0xD0]), refused(2, 3));
    assert_eq!(path_chain(&RULED, &[0x12, 0x00, 0x40], &CD), refused(4, 2));
    assert_eq!(path_chain_into(&RULED, &AB, &CD, &mut [0; 2]), refused(16, 0));
    assert_eq!(check_instance(&S, &none), refused(1, 2));
}

#[test]
fn a_refusal_is_an_error_with_a_text() {
    let refusal: Box<dyn std::error::Error> = Box::new(pi(&S, &T, &F, &RUN).unwrap_err());
    let text = "refused, 13 unpaired: Pi, and the attribute mapping is not a bijection";
    assert_eq!(refusal.to_string(), text);
}
