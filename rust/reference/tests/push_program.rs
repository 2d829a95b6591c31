//! The push program, as a call and as a binary.

mod common;

use common::*;
use reference::plain::*;
use reference::push;
use std::io::Write;
use std::process::{Command, Stdio};

const BASE_TEXT: &str = "tables 2 rows 5\n0 0 1 700\n0 1 0 300\n0 2 1 705\n1 0\n1 1\n";

fn base_input() -> Vec<u8> {
    input(&[base_s(), base_t(), base_f(), base_run()])
}

fn text(input: &[u8]) -> String {
    String::from_utf8(push(input)).unwrap()
}

#[test]
fn the_base_example_prints_its_rows() {
    assert_eq!(text(&base_input()), BASE_TEXT);
}

#[test]
fn bytes_after_the_fourth_sheet_are_not_read() {
    let longer = [base_input(), vec![0, 9, 1]].concat();
    assert_eq!(text(&longer), BASE_TEXT);
}

#[test]
fn each_shorter_input_lacks_a_sheet_s_bytes() {
    // The sheets end after 9, 16, 23 and 45 bytes of input.
    let whole = base_input();
    assert_eq!(whole.len(), 45);
    for length in 0..whole.len() {
        let place = match length {
            0..9 => 1,
            9..16 => 2,
            16..23 => 3,
            _ => 4,
        };
        assert_eq!(text(&whole[..length]), format!("refused 1 {place}\n"), "{length} bytes");
    }
}

#[test]
fn a_refusal_prints_number_and_place() {
    let book = input(&[base_s(), base_t(), base_f(), [base_run(), vec![0]].concat()]);
    assert_eq!(text(&book), "refused 2 4\n");
    let uneven = input(&[
        graph(2, &[(0, 1)]).to_sheet(),
        graph(1, &[]).to_sheet(),
        mapping(&[0, 0], &[&[]]).to_sheet(),
        instance(&[0, 0], &[&[]]).to_sheet(),
    ]);
    assert_eq!(text(&uneven), "refused 12 0\n");
}

#[test]
fn links_stand_in_edge_order_and_values_in_attribute_order() {
    let mut s = graph(2, &[(0, 1), (0, 1)]);
    s.attributes = [(0, 0), (1, 13), (0, 14)].map(|(node, kind)| Attribute { node, kind }).to_vec();
    let mut f = mapping(&[0, 1], &[&[0], &[1]]);
    f.attributes = vec![0, 1, 2];
    let mut run = instance(&[1, 2], &[&[1], &[0]]);
    run.values = vec![vec![4294967295], vec![8, 9], vec![1]];
    let sheets = [s.to_sheet(), s.to_sheet(), f.to_sheet(), run.to_sheet()];
    assert_eq!(text(&input(&sheets)), "tables 2 rows 3\n0 0 1 0 4294967295 1\n1 0 8\n1 1 9\n");
}

#[test]
fn the_binary_prints_what_the_call_yields() {
    for bytes in [base_input(), base_input()[..30].to_vec(), vec![]] {
        let mut child = Command::new(env!("CARGO_BIN_EXE_reference-push"))
            .stdin(Stdio::piped())
            .stdout(Stdio::piped())
            .spawn()
            .unwrap();
        child.stdin.take().unwrap().write_all(&bytes).unwrap();
        let output = child.wait_with_output().unwrap();
        assert!(output.status.success());
        assert_eq!(output.stdout, push(&bytes));
    }
}
