//! Document 01's "Runs to check against", cases 1 to 12; case 11 as request C-12
//! of document 02 has it, and the path question as C-14 has it.

mod common;

use common::*;
use reference::plain::*;
use reference::*;

#[test]
fn case_01_sigma_of_the_base_example() {
    let result = sigma(&base_s(), &base_t(), &base_f(), &base_run());
    assert_eq!(result, Ok(base_sigma()));
}

#[test]
fn case_02_delta_of_the_first_result() {
    let sheet = delta(&base_s(), &base_t(), &base_f(), &base_sigma()).unwrap();
    let s = Schema::accept(&base_s()).unwrap();
    let result = decoded(&s, &sheet);
    assert_eq!(result.rows, [3, 2, 3]);
    assert_eq!(result.links, [[1, 0, 1], [1, 0, 1]]);
    assert_eq!(result.values, [[700, 300, 705], [700, 300, 705]]);
}

#[test]
fn case_03_the_only_matchings_and_their_turnings() {
    let (s, t, f, run, book) = (base_s(), base_t(), base_f(), base_run(), base_book());
    let (only_pushed, only_raw) = ([2, 0, 1, 0, 1], [2, 0, 0, 1, 1]);
    for number in 0..4usize.pow(5) {
        let partners = [0, 1, 2, 3, 4].map(|place| number / 4usize.pow(place) % 4);
        let pushed = if partners == only_pushed { Ok(()) } else { refused(17, 6) };
        let raw = if partners == only_raw { Ok(()) } else { refused(17, 6) };
        assert_eq!(check_pushed(&s, &t, &f, &run, &book, &list(&partners)), pushed);
        assert_eq!(check_raw(&s, &t, &f, &run, &book, &list(&partners)), raw);
    }
    let (pushed, raw) = (list(&only_pushed), list(&only_raw));
    assert_eq!(pushed_to_raw(&s, &t, &f, &run, &book, &pushed), Ok(raw.clone()));
    assert_eq!(raw_to_pushed(&s, &t, &f, &run, &book, &raw), Ok(pushed.clone()));
    assert_eq!(pushed_to_raw(&s, &t, &f, &run, &book, &raw), refused(17, 6));
    assert_eq!(raw_to_pushed(&s, &t, &f, &run, &book, &pushed), refused(17, 6));
}

#[test]
fn case_04_an_edge_to_the_trivial_path() {
    let (s, t) = (graph(2, &[(0, 1)]), graph(1, &[]));
    let f = mapping(&[0, 0], &[&[]]);
    let run = instance(&[4, 3], &[&[2, 0, 0, 1]]);
    let (s, sheet_t, f, run) = (s.to_sheet(), t.to_sheet(), f.to_sheet(), run.to_sheet());
    assert_eq!(sigma(&s, &sheet_t, &f, &run), refused(12, 0));
    let result = decoded(&t, &pi(&s, &sheet_t, &f, &run).unwrap());
    assert_eq!(result.rows, [4]);
}

#[test]
fn case_05_each_edge_has_one_lift_but_a_path_has_two() {
    let s = graph(4, &[(0, 1), (1, 2), (0, 3)]).to_sheet();
    let t = graph(3, &[(0, 1), (1, 2)]).to_sheet();
    let f = mapping(&[0, 1, 2, 2], &[&[0], &[1], &[0, 1]]).to_sheet();
    let run = instance(&[1, 1, 1, 1], &[&[0], &[0], &[0]]).to_sheet();
    assert_eq!(check_mapping(&s, &t, &f), Ok(()));
    assert_eq!(sigma(&s, &t, &f, &run), refused(12, 0));
}

#[test]
fn case_06_pi_pairs_joints_and_welds() {
    let s = graph(2, &[]).to_sheet();
    let t = graph(3, &[(0, 1), (0, 2)]);
    let f = mapping(&[1, 2], &[]).to_sheet();
    let run = instance(&[2, 3], &[]).to_sheet();
    let result = decoded(&t, &pi(&s, &t.to_sheet(), &f, &run).unwrap());
    assert_eq!(result.rows, [6, 2, 3]);
    assert_eq!(result.links, [[0, 0, 0, 1, 1, 1], [0, 1, 2, 0, 1, 2]]);
}

/// Cases 7 and 8: edges a 0 to 1, b 1 to 3, c 0 to 2, d 2 to 3, f 3 to 4.
fn square_with(rule: Equation) -> Vec<u8> {
    let mut schema = graph(5, &[(0, 1), (1, 3), (0, 2), (2, 3), (3, 4)]);
    schema.equations.push(rule);
    schema.to_sheet()
}

#[test]
fn case_07_an_equation_holds_inside_longer_paths() {
    let s = square_with(equation(0, &[0, 1], &[2, 3]));
    let (abf, cdf) = (path(0, &[0, 1, 4]).to_sheet(), path(0, &[2, 3, 4]).to_sheet());
    assert_eq!(first_path(&s, &abf), Ok(abf.clone()));
    assert_eq!(first_path(&s, &cdf), Ok(abf));
}

#[test]
fn case_08_a_common_end_is_not_cancelled() {
    let s = square_with(equation(0, &[0, 1, 4], &[2, 3, 4]));
    let (ab, cd) = (path(0, &[0, 1]).to_sheet(), path(0, &[2, 3]).to_sheet());
    assert_eq!(first_path(&s, &ab), Ok(ab));
    assert_eq!(first_path(&s, &cd), Ok(cd));
    let (abf, cdf) = (path(0, &[0, 1, 4]).to_sheet(), path(0, &[2, 3, 4]).to_sheet());
    assert_eq!(first_path(&s, &abf), Ok(abf.clone()));
    assert_eq!(first_path(&s, &cdf), Ok(abf));
}

#[test]
fn case_09_an_empty_sheet_and_a_byte_too_many() {
    assert_eq!(check_schema(&[]), refused(1, 1));
    let long = [path(0, &[0]).to_sheet(), vec![0]].concat();
    let right = path(0, &[0]).to_sheet();
    assert_eq!(first_path(&base_s(), &right), Ok(right.clone()));
    assert_eq!(first_path(&base_s(), &long), refused(2, 2));
    assert_eq!(path_chain(&base_s(), &long, &right), refused(2, 2));
    assert_eq!(path_chain(&base_s(), &right, &long), refused(2, 3));
}

#[test]
fn case_10_as_many_paths_as_a_schema_may_have() {
    let doubled = (0..6).flat_map(|node| [(node, node + 1); 2]);
    let mut edges: Vec<(usize, usize)> = doubled.collect();
    assert_eq!(check_schema(&graph(16, &edges).to_sheet()), Ok(()));
    edges.push((7, 8));
    assert_eq!(check_schema(&graph(16, &edges).to_sheet()), refused(6, 1));
}

#[test]
fn case_11_as_many_rows_as_there_may_be() {
    let tables = |nodes: usize| graph(nodes, &[]).to_sheet();
    let rows = |rows: &[usize]| instance(rows, &[]).to_sheet();
    assert_eq!(check_instance(&tables(1), &rows(&[512])), Ok(()));
    assert_eq!(check_instance(&tables(1), &rows(&[513])), refused(3, 2));
    assert_eq!(check_instance(&tables(2), &rows(&[200, 312])), Ok(()));
    assert_eq!(check_instance(&tables(2), &rows(&[201, 312])), refused(3, 2));
}

#[test]
fn case_11_a_clock_runs_from_1_to_720() {
    let mut clock = graph(1, &[]);
    clock.attributes.push(Attribute { node: 0, kind: 2 });
    let check = |minutes| {
        let at = Instance { rows: vec![1], links: vec![], values: vec![vec![minutes]] };
        check_instance(&clock.to_sheet(), &at.to_sheet())
    };
    assert_eq!(check(720), Ok(()));
    assert_eq!(check(721), refused(10, 2));
    assert_eq!(check(0), refused(10, 2));
    assert_eq!(check(1), Ok(()));
}

#[test]
fn case_12_a_tray_too_small_by_one_byte() {
    let result = sigma(&base_s(), &base_t(), &base_f(), &base_run());
    let mut tray = [0xEE; 17];
    assert_eq!(into_tray(result.clone(), &mut tray), refused(16, 0));
    assert_eq!(tray, [0xEE; 17]);
    let mut tray = [0xEE; 18];
    assert_eq!(into_tray(result.clone(), &mut tray), Ok(18));
    assert_eq!(tray.to_vec(), base_sigma());
    let mut tray = [0xEE; 20];
    assert_eq!(into_tray(result, &mut tray), Ok(18));
    assert_eq!(tray[..18].to_vec(), base_sigma());
    assert_eq!(tray[18..], [0xEE; 2]);
    assert_eq!(into_tray(refused(12, 0), &mut tray), refused(12, 0));
    assert_eq!(tray[18..], [0xEE; 2]);
}
