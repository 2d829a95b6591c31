//! Document 01's "Runs to check against", by name; case 11 as request C-12 of
//! document 02 has it.

use crate::base::*;
use crate::build::*;
use crate::call::{Call, Case};
use crate::questions::Question;
use reference::plain::*;

/// Cases 1 to 12, each under its number.
pub fn papers() -> Vec<Case> {
    let mut cases = Vec::new();
    cases.extend(base_example());
    cases.extend(uneven_mappings());
    cases.extend(pairs());
    cases.extend(squares());
    cases.extend(ends());
    cases.extend(limits_of_the_paper());
    cases.extend(small_trays());
    cases
}

/// Cases 1 to 3.
fn base_example() -> Vec<Case> {
    let mapped = || vec![base_s(), base_t(), base_f()];
    let with = |more: Vec<Vec<u8>>| [mapped(), more].concat();
    let pushed = list(&[2, 0, 1, 0, 1]);
    let raw = list(&[2, 0, 0, 1, 1]);
    let sides = |list: &Vec<u8>| with(vec![base_run(), base_book(), list.clone()]);
    let mut cases = vec![
        Case::new("case 1: sigma", Call::Sigma, with(vec![base_run()])).with_tray(18),
        Case::new("case 2: delta", Call::Delta, with(vec![base_sigma()])).with_tray(64),
        Case::new("case 3: S", Call::CheckSchema, vec![base_s()]),
        Case::new("case 3: T", Call::CheckSchema, vec![base_t()]),
        Case::new("case 3: mapping", Call::CheckMapping, mapped()),
        Case::new("case 3: run", Call::CheckInstance, vec![base_s(), base_run()]),
        Case::new("case 3: book", Call::CheckInstance, vec![base_t(), base_book()]),
        Case::new("case 3: pushed", Call::CheckPushed, sides(&pushed)),
        Case::new("case 3: raw", Call::CheckRaw, sides(&raw)),
        Case::new("case 3: to raw", Call::PushedToRaw, sides(&pushed)).with_tray(6),
        Case::new("case 3: to pushed", Call::RawToPushed, sides(&raw)).with_tray(6),
        Case::new("case 3: raw as pushed", Call::CheckPushed, sides(&raw)),
        Case::new("case 3: pushed as raw", Call::CheckRaw, sides(&pushed)),
        Case::new("case 3: raw to raw", Call::PushedToRaw, sides(&raw)).with_tray(6),
        Case::new("case 3: pushed to pushed", Call::RawToPushed, sides(&pushed)).with_tray(6),
    ];
    for row in 0..5 {
        for partner in 0..4 {
            let changed = |mut partners: [usize; 5]| {
                partners[row] = partner;
                list(&partners)
            };
            let name = format!("case 3: partner {partner} for row {row}");
            let lists = (changed([2, 0, 1, 0, 1]), changed([2, 0, 0, 1, 1]));
            cases.push(Case::new(name.clone(), Call::CheckPushed, sides(&lists.0)));
            cases.push(Case::new(name, Call::CheckRaw, sides(&lists.1)));
        }
    }
    cases
}

/// Cases 4 and 5.
fn uneven_mappings() -> Vec<Case> {
    let (s, t) = (graph(2, &[(0, 1)]), graph(1, &[]));
    let f = mapping(&[0, 0], &[&[]]);
    let run = instance(&[4, 3], &[&[2, 0, 0, 1]]);
    let four = vec![s.to_sheet(), t.to_sheet(), f.to_sheet(), run.to_sheet()];
    let s = graph(4, &[(0, 1), (1, 2), (0, 3)]);
    let t = graph(3, &[(0, 1), (1, 2)]);
    let f = mapping(&[0, 1, 2, 2], &[&[0], &[1], &[0, 1]]);
    let run = instance(&[1, 1, 1, 1], &[&[0], &[0], &[0]]);
    let five = vec![s.to_sheet(), t.to_sheet(), f.to_sheet(), run.to_sheet()];
    vec![
        Case::new("case 4: sigma", Call::Sigma, four.clone()).with_tray(16),
        Case::new("case 4: pi", Call::Pi, four).with_tray(16),
        Case::new("case 5: mapping", Call::CheckMapping, five[..3].to_vec()),
        Case::new("case 5: sigma", Call::Sigma, five).with_tray(16),
    ]
}

/// Case 6.
fn pairs() -> Vec<Case> {
    let (s, t) = (graph(2, &[]), graph(3, &[(0, 1), (0, 2)]));
    let (f, run) = (mapping(&[1, 2], &[]), instance(&[2, 3], &[]));
    let sheets = vec![s.to_sheet(), t.to_sheet(), f.to_sheet(), run.to_sheet()];
    vec![Case::new("case 6: pi", Call::Pi, sheets).with_tray(32)]
}

/// Cases 7 and 8, and which equations make the paths equal.
fn squares() -> Vec<Case> {
    let ask = |name: &str, rule: Equation, p: &[usize], q: &[usize]| {
        let mut schema = graph(5, &[(0, 1), (1, 3), (0, 2), (2, 3), (3, 4)]);
        schema.equations.push(rule);
        let question = Question::new(&schema, path(0, p), path(0, q));
        let [of_p, of_q] = question.firsts(name).map(|case| case.with_tray(4));
        [of_p, of_q, question.chain(name).with_tray(4)]
    };
    let short = || equation(0, &[0, 1], &[2, 3]);
    let long = || equation(0, &[0, 1, 4], &[2, 3, 4]);
    let asked = [
        ask("case 7: abf, cdf", short(), &[0, 1, 4], &[2, 3, 4]),
        ask("case 7: ab, cd", short(), &[0, 1], &[2, 3]),
        ask("case 8: ab, cd", long(), &[0, 1], &[2, 3]),
        ask("case 8: abf, cdf", long(), &[0, 1, 4], &[2, 3, 4]),
    ];
    asked.concat()
}

/// Case 9.
fn ends() -> Vec<Case> {
    let right = path(0, &[0]).to_sheet();
    let long = [right.clone(), vec![0]].concat();
    let ask =
        |p: Vec<u8>| Case::new("case 9: path", Call::FirstPath, vec![base_s(), p]).with_tray(4);
    vec![Case::new("case 9: schema", Call::CheckSchema, vec![vec![]]), ask(long), ask(right)]
}

/// Cases 10 and 11.
fn limits_of_the_paper() -> Vec<Case> {
    let mut most = doubled_chain(7);
    most.nodes = 16;
    let mut more = most.clone();
    more.edges.push(Edge { source: 7, target: 8 });
    let table = graph(1, &[]).to_sheet();
    let rows = |count: usize| vec![table.clone(), instance(&[count], &[]).to_sheet()];
    let mut clock = graph(1, &[]);
    clock.attributes.push(Attribute { node: 0, kind: 2 });
    let at = |minutes: u32| {
        let run = Instance { rows: vec![1], links: vec![], values: vec![vec![minutes]] };
        vec![clock.to_sheet(), run.to_sheet()]
    };
    vec![
        Case::new("case 10: 256 paths", Call::CheckSchema, vec![most.to_sheet()]),
        Case::new("case 10: 257 paths", Call::CheckSchema, vec![more.to_sheet()]),
        Case::new("case 11: 512 rows", Call::CheckInstance, rows(512)),
        Case::new("case 11: 513 rows", Call::CheckInstance, rows(513)),
        Case::new("case 11: clock 720", Call::CheckInstance, at(720)),
        Case::new("case 11: clock 721", Call::CheckInstance, at(721)),
        Case::new("case 11: clock 0", Call::CheckInstance, at(0)),
    ]
}

/// Case 12.
fn small_trays() -> Vec<Case> {
    let sheets = vec![base_s(), base_t(), base_f(), base_run()];
    let tray = |length: usize| {
        let name = format!("case 12: a tray of {length} bytes");
        Case::new(name, Call::Sigma, sheets.clone()).with_tray(length)
    };
    vec![tray(17), tray(18), tray(20)]
}
