//! Request C-16 of document 02, "Rows that come and go": each refusal of a change,
//! and their order.

mod common;

use common::*;
use reference::plain::*;
use reference::*;

/// Room enough for every change here.
const ROOM: usize = 60_000;

#[test]
fn sheets_and_12_are_judged_before_the_change_as_sigma_judges_them() {
    let change = |sheets: [Vec<u8>; 4], expected: Refusal| {
        let [s, t, f, run] = &sheets;
        assert_eq!(sigma(s, t, f, run), Err(expected));
        let mut trays = Trays::of(sheets, 0, 0);
        for absent in [3, 16, usize::MAX] {
            assert_eq!(trays.add(absent, &[0xFF; 20]), Err(expected));
            assert_eq!(trays.withdraw(absent, absent), Err(expected));
        }
        assert_eq!(trays.add(0, &[]), Err(expected));
        assert_eq!(trays.withdraw(1, 0), Err(expected));
    };
    let base = [base_s(), base_t(), base_f(), base_run()];
    for place in 0..4 {
        for second in place..4 {
            let mut damaged = base.clone();
            damaged[second].pop();
            damaged[place] = [base[place].clone(), vec![0]].concat();
            change(damaged, Refusal { number: 2, place: place as u8 + 1 });
        }
    }
    // Case 4: uneven; but first comes the run.
    let (s, t, f) = (graph(2, &[(0, 1)]), graph(1, &[]), mapping(&[0, 0], &[&[]]));
    for (target, expected) in [(1, (12, 0)), (2, (9, 4))] {
        let run = instance(&[1, 2], &[&[target]]).to_sheet();
        let (number, place) = expected;
        let sheets = [s.to_sheet(), t.to_sheet(), f.to_sheet(), run];
        change(sheets, Refusal { number, place });
    }
}

#[test]
fn a_table_that_is_no_node_is_absent() {
    let mut trays = Trays::base(ROOM, ROOM);
    let numbers = [3, 4, 15, 16, 255, 256, 1 << 16, 1 << 32, (1 << 32) + 1, usize::MAX];
    for table in numbers {
        assert_eq!(trays.add(table, &row(&[1], &[450])), refused(18, 0));
        assert_eq!(trays.add(table, &[]), refused(18, 0));
        assert_eq!(trays.withdraw(table, 0), refused(18, 0));
        assert_eq!(trays.withdraw(table, usize::MAX), refused(18, 0));
    }
}

#[test]
fn a_row_at_or_beyond_its_table_s_count_is_absent() {
    for (table, count) in [(0, 2), (1, 2), (2, 1)] {
        let wide = [count, count + 1, 256, 512, 1 << 16, 1 << 32, (1 << 32) + 1, usize::MAX];
        for row in wide {
            assert_eq!(Trays::base(ROOM, ROOM).withdraw(table, row), refused(18, 0));
        }
        let last = Trays::base(ROOM, ROOM).withdraw(table, count - 1);
        assert_eq!(last.err(), (table == 1).then_some(Refusal { number: 19, place: 0 }));
    }
    // A table without rows.
    let mut trays = Trays::base(0, 18);
    assert!(trays.withdraw(2, 0).is_ok());
    assert_eq!(trays.withdraw(2, 0), refused(18, 0));
}

#[test]
fn a_row_that_a_link_leads_to_is_still_held() {
    let mut trays = Trays::base(ROOM, ROOM);
    // Joint 0 is held by a dent, joint 1 by a dent and by a loss.
    assert_eq!(trays.withdraw(1, 0), refused(19, 0));
    assert_eq!(trays.withdraw(1, 1), refused(19, 0));
    assert!(trays.withdraw(0, 0).is_ok());
    assert_eq!(trays.withdraw(1, 1), refused(19, 0));
    assert!(trays.withdraw(2, 0).is_ok());
    assert!(trays.withdraw(1, 1).is_ok());
    assert_eq!(trays.withdraw(1, 0), refused(19, 0));
    // A row's own links do not hold it.
    assert!(trays.withdraw(0, 0).is_ok());
    assert!(trays.withdraw(1, 0).is_ok());
}

#[test]
fn a_row_sheet_is_cut_or_has_a_tail() {
    let dent = row(&[1], &[450]);
    for cut in 0..dent.len() {
        assert_eq!(Trays::base(ROOM, ROOM).add(0, &dent[..cut]), refused(1, 0));
    }
    // 41 bits and so 7 filling bits.
    for filling in 0..7 {
        let mut damaged = dent.clone();
        damaged[5] |= 1 << filling;
        assert_eq!(Trays::base(ROOM, ROOM).add(0, &damaged), refused(2, 0));
    }
    for byte in [0x00, 0x80, 0xFF] {
        let longer = [dent.clone(), vec![byte]].concat();
        assert_eq!(Trays::base(ROOM, ROOM).add(0, &longer), refused(2, 0));
        // Joints have neither links nor values.
        assert_eq!(Trays::base(ROOM, ROOM).add(1, &[byte]), refused(2, 0));
    }
}

#[test]
fn a_link_is_asked_against_the_count_of_its_target_s_table() {
    let add = |target: usize| Trays::base(ROOM, ROOM).add(0, &row(&[target], &[450]));
    assert_eq!(add(0), Ok((25, 23)));
    assert_eq!(add(1), Ok((25, 23)));
    for target in [2, 3, 255, 256, 511] {
        assert_eq!(add(target), refused(9, 0));
    }
}

#[test]
fn each_kind_s_ends_bound_an_added_value() {
    for (kind, range) in RANGES.into_iter().enumerate() {
        let mut s = graph(1, &[]);
        s.attributes.push(Attribute { node: 0, kind });
        let none = Instance { rows: vec![0], links: vec![], values: vec![vec![]] };
        let add = |value| {
            let sheet = s.to_sheet();
            let sheets = [sheet.clone(), sheet, identity(&s).to_sheet(), none.to_sheet()];
            Trays::of(sheets, 4, 6).add(0, &row(&[], &[value]))
        };
        assert_eq!(add(*range.start()), Ok((6, 6)));
        assert_eq!(add(*range.end()), Ok((6, 6)));
        for outside in [range.start().checked_sub(1), range.end().checked_add(1)] {
            assert!(outside.is_none_or(|value| add(value) == refused(10, 0)));
        }
    }
}

/// Table 0 has two edges to table 1, which are equal by the one equation, and a
/// clock.  The run has two rows in table 1, which the rows of table 0 lead to in
/// turn.
fn ruled(rows: usize) -> [Vec<u8>; 4] {
    let mut s = graph(2, &[(0, 1), (0, 1)]);
    s.attributes.push(Attribute { node: 0, kind: 2 });
    s.equations.push(equation(0, &[0], &[1]));
    let targets: Vec<usize> = (0..rows).map(|row| row % 2).collect();
    let mut run = instance(&[rows, 2], &[&targets, &targets]);
    run.values = vec![vec![720; rows]];
    [s.to_sheet(), s.to_sheet(), identity(&s).to_sheet(), run.to_sheet()]
}

#[test]
fn a_row_that_an_equation_bends_is_refused() {
    let add = |links: [usize; 2]| Trays::of(ruled(3), ROOM, ROOM).add(0, &row(&links, &[1]));
    assert!(add([0, 0]).is_ok());
    assert!(add([1, 1]).is_ok());
    assert_eq!(add([0, 1]), refused(11, 0));
    assert_eq!(add([1, 0]), refused(11, 0));
}

#[test]
fn an_equation_of_longer_paths_bends_a_row_too() {
    // ab = cd; b leads from rows 0 and 1 to rows 1 and 0, d from both to row 1.
    let mut s = graph(4, &[(0, 1), (1, 3), (0, 2), (2, 3)]);
    s.equations.push(equation(0, &[0, 1], &[2, 3]));
    s.equations.push(equation(1, &[1], &[1]));
    let run = instance(&[0, 2, 2, 2], &[&[], &[1, 0], &[], &[1, 1]]).to_sheet();
    let sheets = [s.to_sheet(), s.to_sheet(), identity(&s).to_sheet(), run];
    let add = |links: [usize; 2]| Trays::of(sheets.clone(), 9, 30).add(0, &row(&links, &[]));
    assert_eq!(add([0, 0]).err(), None);
    assert_eq!(add([0, 1]).err(), None);
    assert_eq!(add([1, 0]), refused(11, 0));
    assert_eq!(add([1, 1]), refused(11, 0));
}

#[test]
fn a_run_of_512_rows_takes_no_row_more() {
    let mut trays = Trays::of(ruled(509), ROOM, ROOM);
    let good = row(&[1, 1], &[1]);
    assert!(trays.add(0, &good).is_ok());
    assert_eq!(trays.decoded_run().total_rows(), 512);
    assert_eq!(trays.add(0, &good), refused(15, 0));
    assert_eq!(trays.add(1, &[]), refused(15, 0));
    // The run itself is refused, before its Sigma is.
    let s = Schema::accept(&trays.s).unwrap();
    assert_eq!(rows::added(&s, &trays.decoded_run(), 0, &good), Err(15));
    assert!(trays.withdraw(0, 0).is_ok());
    assert!(trays.add(1, &[]).is_ok());
    assert_eq!(trays.add(0, &good), refused(15, 0));
    // A single table of 512 rows.
    let one = graph(1, &[]);
    let run = instance(&[511], &[]).to_sheet();
    let mut trays = Trays::of([one.to_sheet(), one.to_sheet(), vec![0], run], 0, 2);
    assert_eq!(trays.add(0, &[]), Ok((2, 2)));
    assert_eq!(trays.run, hex("80 00"));
    assert_eq!(trays.add(0, &[]), refused(15, 0));
    assert_eq!(trays.withdraw(0, 511), Ok((2, 2)));
}

#[test]
fn either_tray_too_small_is_refused_and_both_stay() {
    // With a dent more the run has 25 bytes, 5 more, and the pushed sheet 23.
    for behind in 0..8 {
        for pushed in 0..26 {
            let fit = behind >= 5 && pushed >= 23;
            let expected = if fit { Ok((25, 23)) } else { refused(16, 0) };
            let mut trays = Trays::base(behind, pushed);
            assert_eq!(trays.add(0, &row(&[1], &[450])), expected);
        }
    }
    // With a dent less the run has 14 bytes and the pushed sheet 13.
    for pushed in 0..20 {
        let expected = if pushed >= 13 { Ok((14, 13)) } else { refused(16, 0) };
        assert_eq!(Trays::base(0, pushed).withdraw(0, 0), expected);
    }
}

/// The faults of a change that adds a row.
#[derive(Debug, Clone, Copy)]
struct Faults {
    absent: bool,
    /// A byte fewer or more on the row sheet.
    bytes: i32,
    dangling: bool,
    off_scale: bool,
    bent: bool,
    full: bool,
    small_run: bool,
    small_pushed: bool,
}

impl Faults {
    fn all() -> impl Iterator<Item = Faults> {
        let of = |number: u32, bytes: i32| {
            let bit = |place: u32| number >> place & 1 == 1;
            let [absent, dangling, off_scale, bent] = [0, 1, 2, 3].map(bit);
            let [full, small_run, small_pushed] = [4, 5, 6].map(bit);
            Faults { absent, bytes, dangling, off_scale, bent, full, small_run, small_pushed }
        };
        (0..128).flat_map(move |number| [-1, 0, 1].map(|bytes| of(number, bytes)))
    }

    /// The first number that applies, by the order in which the request has them.
    fn first(self) -> Option<u8> {
        let in_order = [
            (18, self.absent),
            (1, self.bytes < 0),
            (2, self.bytes > 0),
            (9, self.dangling),
            (10, self.off_scale),
            (11, self.bent),
            (15, self.full),
            (16, self.small_run || self.small_pushed),
        ];
        in_order.into_iter().find(|&(_, applies)| applies).map(|(number, _)| number)
    }

    fn change(self) -> Lengths {
        let links = match (self.dangling, self.bent) {
            (false, false) => [1, 1],
            (false, true) => [0, 1],
            (true, false) => [2, 2],
            (true, true) => [1, 511],
        };
        let mut sheet = row(&links, &[if self.off_scale { 721 } else { 720 }]);
        match self.bytes {
            0 => {}
            1 => sheet.push(0),
            _ => drop(sheet.pop()),
        }
        let rows = if self.full { 510 } else { 3 };
        let behind = if self.small_run { 0 } else { ROOM };
        let pushed = if self.small_pushed { 0 } else { ROOM };
        let table = if self.absent { 2 } else { 0 };
        Trays::of(ruled(rows), behind, pushed).add(table, &sheet)
    }
}

#[test]
fn of_several_faults_of_an_added_row_the_first_is_told() {
    for faults in Faults::all() {
        let expected = faults.first().map(|number| Refusal { number, place: 0 });
        assert_eq!(faults.change().err(), expected, "{faults:?}");
    }
}

#[test]
fn a_withdrawn_row_is_absent_before_it_is_held_and_held_before_a_tray_is_small() {
    for pushed in [0, 30] {
        let withdraw = |table, row| Trays::base(0, pushed).withdraw(table, row);
        // Row 1 is held in table 1 alone; there is no table 3.
        assert_eq!(withdraw(3, 1), refused(18, 0));
        assert_eq!(withdraw(1, 2), refused(18, 0));
        assert_eq!(withdraw(2, 1), refused(18, 0));
        assert_eq!(withdraw(1, 1), refused(19, 0));
        assert_eq!(withdraw(0, 1), if pushed == 0 { refused(16, 0) } else { Ok((14, 13)) });
    }
}

#[test]
fn a_full_run_is_still_changed_by_withdrawing() {
    let mut trays = Trays::of(ruled(510), 0, ROOM);
    assert_eq!(trays.withdraw(1, 0), refused(19, 0));
    assert!(trays.withdraw(0, 509).is_ok());
    assert_eq!(trays.decoded_run().rows, [509, 2]);
}
