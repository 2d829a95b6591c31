//! Request C-16 of document 02, "Rows that come and go": what an accepted change
//! leaves in both trays.

mod common;

use common::*;
use reference::plain::*;
use reference::*;

/// The base example with a third dent, at joint 1 and station 450.
const DENT: &str = "00 80 00 00 E1 00";
const RUN_WITH_DENT: &str = "00 C0 20 04 02 00 00 80 40 00 00 AF 00 00 00 4B 00 00 00 70 80 \
    00 00 B0 40";
const PUSHED_WITH_DENT: &str = "01 00 20 08 00 02 01 00 00 02 BC 00 00 01 2C 00 00 01 C2 \
    00 00 02 C1";

#[test]
fn a_dent_added_to_the_base_example_and_withdrawn_gives_the_first_bytes_again() {
    let mut trays = Trays::base(5, 23);
    assert_eq!(row(&[1], &[450]), hex(DENT));
    assert_eq!(trays.add(0, &hex(DENT)), Ok((25, 23)));
    assert_eq!(trays.run, hex(RUN_WITH_DENT));
    assert_eq!(trays.pushed, hex(PUSHED_WITH_DENT));
    assert_eq!(trays.withdraw(0, 2), Ok((20, 18)));
    assert_eq!(trays.run_sheet(), base_run());
    assert_eq!(trays.pushed[..18].to_vec(), base_sigma());
    // Behind both sheets the bytes of the longer ones still stand.
    assert_eq!(trays.run[20..].to_vec(), hex(RUN_WITH_DENT)[20..]);
    assert_eq!(trays.pushed[18..].to_vec(), hex(PUSHED_WITH_DENT)[18..]);
}

#[test]
fn the_results_before_they_are_written() {
    let (s, t, f, run) = (base_s(), base_t(), base_f(), base_run());
    let added = ChangedSheets { run: hex(RUN_WITH_DENT), pushed: hex(PUSHED_WITH_DENT) };
    assert_eq!(add_row(&s, &t, &f, &run, 20, 0, &hex(DENT)), Ok(added.clone()));
    let first = ChangedSheets { run: base_run(), pushed: base_sigma() };
    assert_eq!(withdraw_row(&s, &t, &f, &added.run, 25, 0, 2), Ok(first));
}

#[test]
fn later_rows_and_the_links_to_them_move_down() {
    let mut trays = Trays::base(30, 60);
    assert!(trays.add(0, &row(&[1], &[450])).is_ok());
    assert!(trays.add(1, &[]).is_ok());
    assert!(trays.add(2, &row(&[2], &[900])).is_ok());
    // Dent 1 alone is at joint 0.
    assert_eq!(trays.withdraw(1, 0), refused(19, 0));
    assert!(trays.withdraw(0, 1).is_ok());
    let run = trays.decoded_run();
    assert_eq!(run.rows, [2, 3, 2]);
    assert_eq!(run.links, [[1, 1], [1, 2]]);
    assert_eq!(run.values, [[700, 450], [705, 900]]);
    assert!(trays.withdraw(1, 0).is_ok());
    let run = trays.decoded_run();
    assert_eq!(run.rows, [2, 2, 2]);
    assert_eq!(run.links, [[0, 0], [0, 1]]);
    assert_eq!(run.values, [[700, 450], [705, 900]]);
    let t = Schema::accept(&base_t()).unwrap();
    let pushed = decoded(&t, &sigma(&trays.s, &trays.t, &trays.f, trays.run_sheet()).unwrap());
    assert_eq!(pushed.rows, [4, 2]);
    assert_eq!(pushed.links, [[0, 0, 0, 1]]);
    assert_eq!(pushed.values, [[700, 450, 705, 900]]);
}

#[test]
fn a_run_is_emptied_row_by_row_and_filled_again() {
    let mut trays = Trays::base(0, 18);
    for (table, row) in [(2, 0), (0, 0), (0, 0), (1, 1), (1, 0)] {
        assert!(trays.withdraw(table, row).is_ok());
    }
    assert_eq!(trays.run_sheet(), [0; 4]);
    assert_eq!(trays.pushed[..3], [0; 3]);
    assert_eq!(trays.add(0, &row(&[0], &[700])), refused(9, 0));
    for (table, sheet) in [(1, vec![]), (1, vec![]), (0, row(&[1], &[700]))] {
        assert!(trays.add(table, &sheet).is_ok());
    }
    assert!(trays.add(2, &row(&[1], &[705])).is_ok());
    assert_eq!(trays.add(0, &row(&[0], &[300])), Ok((20, 18)));
    assert_eq!(trays.run, base_run());
    assert_eq!(trays.pushed, base_sigma());
}

/// Table 1 has edges 1 and 3 and attributes 0, 2 and 3; others stand between them.
fn interleaved() -> [Vec<u8>; 4] {
    let mut s = graph(3, &[(0, 1), (1, 2), (0, 2), (1, 2)]);
    let columns = [(1, 0), (2, 1), (1, 2), (1, 3), (0, 0)];
    s.attributes = columns.map(|(node, kind)| Attribute { node, kind }).to_vec();
    let mut run = instance(&[1, 1, 3], &[&[0], &[2], &[1], &[0]]);
    run.values = vec![vec![10], vec![20, 21, 22], vec![30], vec![40], vec![50]];
    [s.to_sheet(), s.to_sheet(), identity(&s).to_sheet(), run.to_sheet()]
}

#[test]
fn links_stand_in_edge_order_and_values_in_attribute_order() {
    let mut trays = Trays::of(interleaved(), 20, 80);
    // 2 links and 3 values are 114 bits: 15 bytes, with 6 filling bits.
    let sheet = row(&[1, 2], &[u32::MAX, 720, 1000]);
    assert_eq!(sheet, hex("00 80 BF FF FF FF C0 00 00 B4 00 00 00 FA 00"));
    assert!(trays.add(1, &sheet).is_ok());
    let run = trays.decoded_run();
    assert_eq!(run.rows, [1, 2, 3]);
    assert_eq!(run.links, [vec![0], vec![2, 1], vec![1], vec![0, 2]]);
    let [first, third, fourth] = [vec![10, u32::MAX], vec![30, 720], vec![40, 1000]];
    assert_eq!(run.values, [first, vec![20, 21, 22], third, fourth, vec![50]]);
    assert_eq!(trays.withdraw(1, 0), refused(19, 0));
    assert!(trays.withdraw(1, 1).is_ok());
    assert_eq!(trays.run_sheet(), interleaved()[3]);
}

#[test]
fn a_row_without_links_and_values_is_added_where_the_trays_have_no_byte_more() {
    let mut trays = Trays::base(0, 18);
    assert_eq!(trays.add(1, &[]), Ok((20, 18)));
    assert_eq!(trays.decoded_run().rows, [2, 3, 1]);
    assert_eq!(trays.withdraw(1, 2), Ok((20, 18)));
    assert_eq!(trays.run, base_run());
    assert_eq!(trays.pushed, base_sigma());
}

#[test]
fn the_run_is_as_long_as_its_byte_length_says_or_as_the_tray() {
    let dent = hex(DENT);
    for length in 0..30 {
        let mut trays = Trays { run_length: length, ..Trays::base(9, 30) };
        let expected = match length {
            0..20 => refused(1, 4),
            20 => Ok((25, 23)),
            // The bytes behind the run belong to its sheet then.
            _ => refused(2, 4),
        };
        assert_eq!(trays.clone().withdraw(0, 0), expected.map(|_| (14, 13)));
        assert_eq!(trays.add(0, &dent), expected);
    }
    for length in [20, 21, 1 << 16, 1 << 32, usize::MAX] {
        // Here the tray has no byte behind the run, and no room for a dent more.
        let trays = Trays { run_length: length, ..Trays::base(0, 30) };
        assert_eq!(trays.clone().withdraw(0, 0), Ok((14, 13)));
        assert_eq!(trays.clone().add(1, &[]), Ok((20, 18)));
        assert_eq!(trays.clone().add(0, &dent), refused(16, 0));
    }
}

#[test]
fn the_pushed_tray_s_old_bytes_are_not_read() {
    for old in [0x00, 0x55, 0xFF] {
        let mut trays = Trays { pushed: vec![old; 30], ..Trays::base(5, 0) };
        assert_eq!(trays.add(0, &hex(DENT)), Ok((25, 23)));
        assert_eq!(trays.pushed, [hex(PUSHED_WITH_DENT), vec![old; 7]].concat());
    }
}

#[test]
fn matchings_are_compared_for_the_run_as_it_then_is() {
    let (s, t, f, book) = (base_s(), base_t(), base_f(), base_book());
    let mut trays = Trays::base(10, 30);
    let check = |trays: &Trays, pushed: &[usize], raw: &[usize]| {
        let run = trays.run_sheet();
        let (pushed, raw) = (list(pushed), list(raw));
        let checked = check_pushed(&s, &t, &f, run, &book, &pushed);
        assert_eq!(check_raw(&s, &t, &f, run, &book, &raw), checked);
        assert_eq!(pushed_to_raw(&s, &t, &f, run, &book, &pushed), checked.map(|()| raw));
        checked
    };
    let first: (&[usize], &[usize]) = (&[2, 0, 1, 0, 1], &[2, 0, 0, 1, 1]);
    assert_eq!(check(&trays, first.0, first.1), Ok(()));
    // Without the dent at station 300 each list is shorter by one.
    assert!(trays.withdraw(0, 1).is_ok());
    assert_eq!(check(&trays, first.0, first.1), refused(2, 6));
    assert_eq!(check(&trays, &[2, 1, 0, 1], &[2, 0, 1, 1]), Ok(()));
    // A second dent at 700 has the same partner; one at 450 has none.
    assert!(trays.add(0, &row(&[1], &[700])).is_ok());
    assert_eq!(check(&trays, &[2, 2, 1, 0, 1], &[2, 2, 0, 1, 1]), Ok(()));
    assert!(trays.withdraw(0, 0).is_ok());
    assert!(trays.add(0, &row(&[1], &[450])).is_ok());
    assert_eq!(check(&trays, &[2, 2, 1, 0, 1], &[2, 2, 0, 1, 1]), refused(17, 6));
}
