//! Trials of the header's five sizes: sheets of just so many bytes, and trays.

use crate::arguments::{RUN, TRAY};
use crate::constants::{CHAIN_BYTES, INSTANCE_BYTES, MAPPING_BYTES, MATCHING_BYTES, PATH_BYTES};
use crate::trials::Trial;
use reference::plain::{Attribute, Instance, Row, Schema};
use vectors::build::{graph, identity, instance, list, mapping, path};
use vectors::call::{Call, Case};
use vectors::chains::longer_way;
use vectors::compositions::longest_composable;
use vectors::trays::{Change, Trays};

/// Trials of the five sizes.
pub fn longest() -> Vec<Trial> {
    let instances = [longest_instances(), longest_queries(), longest_changes()].concat();
    [instances, longest_lists(), longest_paths(), chains(), longest_mappings()].concat()
}

/// The schema whose instances are the longest: 16 nodes, 32 edges and 16
/// attributes, all of one table.
fn widest() -> Schema {
    let attributes = vec![Attribute { node: 0, kind: 0 }; 16];
    Schema { attributes, ..graph(16, &[(0, 1); 32]) }
}

/// An instance of this schema with so many rows in its first two tables.
fn rows(first: usize, second: usize) -> Instance {
    let rows = [vec![first, second], vec![0; 14]].concat();
    Instance { rows, links: vec![vec![0; first]; 32], values: vec![vec![0; first]; 16] }
}

/// A sheet, the sheet without its last byte, and with a byte more; and how much
/// longer each is.
fn around(sheet: &[u8]) -> [(&'static str, i64, Vec<u8>); 3] {
    [
        ("whole", 0, sheet.to_vec()),
        ("cut", -1, sheet[..sheet.len() - 1].to_vec()),
        ("with a byte more", 1, [sheet, &[0]].concat()),
    ]
}

/// "An instance sheet is at most 51,220 bytes."  One of that length is read to
/// its end and then sent back: 512 rows in one table leave none that its links
/// could lead to.  With such a row a sheet has at most 51,120 bytes, and that is
/// the longest result.
fn longest_instances() -> Vec<Trial> {
    let schema = widest().to_sheet();
    let mut trials = Vec::new();
    for (what, more, sheet) in around(&rows(512, 0).to_sheet()) {
        let name = format!("the longest instance sheet, {what}");
        let case = Case::new(name, Call::CheckInstance, vec![schema.clone(), sheet]);
        trials.push(Trial::new(case).sized(2, INSTANCE_BYTES, more));
    }
    let (same, run) = (identity(&widest()).to_sheet(), rows(511, 1).to_sheet());
    let (longest, needed) = (rows(512, 0).to_sheet().len(), run.len());
    let sheets = vec![schema.clone(), schema, same, run];
    let pulled = |name: &str, tray: usize| {
        Trial::new(Case::new(name, Call::Delta, sheets.clone()).with_tray(tray))
    };
    trials.push(pulled("the longest result", longest).sized(TRAY, INSTANCE_BYTES, 0));
    trials.push(pulled("the longest result, a tray of a byte less", needed - 1));
    trials
}

/// The same of a query between four such schemas, to themselves.
fn longest_queries() -> Vec<Trial> {
    let (schema, same) = (widest().to_sheet(), identity(&widest()).to_sheet());
    let query = |name: String, run: Vec<u8>, tray: usize| {
        let sheets = [vec![schema.clone(); 4], vec![same.clone(); 3], vec![run]].concat();
        Trial::new(Case::new(name, Call::Query, sheets).with_tray(tray))
    };
    let longest = rows(512, 0).to_sheet();
    let mut trials = Vec::new();
    for (what, more, sheet) in around(&longest) {
        let name = format!("a query of the longest instance sheet, {what}");
        trials.push(query(name, sheet, 0).sized(8, INSTANCE_BYTES, more));
    }
    let dug = |name: &str, tray: usize| query(name.into(), rows(511, 1).to_sheet(), tray);
    let needed = rows(511, 1).to_sheet().len();
    let whole = dug("the longest result of a query", longest.len());
    trials.push(whole.sized(TRAY, INSTANCE_BYTES, 0));
    trials.push(dug("the longest result of a query, a tray of a byte less", needed - 1));
    trials
}

/// The same of changes along the identity of such a schema: a row is added, so that both
/// results are as long as there can be, and one is withdrawn.
fn longest_changes() -> Vec<Trial> {
    let (schema, same) = (widest().to_sheet(), identity(&widest()).to_sheet());
    let trays = |run: &Instance, trays: [usize; 2]| {
        let sheets = [schema.clone(), schema.clone(), same.clone(), run.to_sheet()];
        let behind = vec![0; trays[0] - sheets[3].len()];
        Trays::of_sheets(sheets, &behind, trays[1])
    };
    let (most, needed) = (rows(512, 0).to_sheet().len(), rows(511, 1).to_sheet().len());
    let row = Row { links: vec![0; 32], values: vec![0; 16] };
    let add = |name: &str, sizes: [usize; 2]| {
        Trial::new(trays(&rows(510, 1), sizes).case(name, Change::add(0, &row)))
    };
    let withdrawn = trays(&rows(511, 1), [most; 2]).case("a row less", Change::withdraw(0, 0));
    let dangling = trays(&rows(512, 0), [most; 2])
        .case("the longest instance sheet, to be changed", Change::withdraw(0, 0));
    let sized = |trial: Trial| trial.sized(RUN, INSTANCE_BYTES, 0).sized(TRAY, INSTANCE_BYTES, 0);
    vec![
        sized(add("the longest results of a change", [most; 2])),
        add("the longest results of a change, a run tray of a byte less", [needed - 1, needed]),
        add("the longest results of a change, a pushed tray of a byte less", [needed, needed - 1]),
        sized(Trial::new(withdrawn)),
        sized(Trial::new(dangling)),
    ]
}

/// A list of 512 rows for each call that takes one, and trays for its turning.
fn longest_lists() -> Vec<Trial> {
    let partners = list(&(0..512).map(|row| row % 256).collect::<Vec<_>>());
    let mut trials = Vec::new();
    for call in [Call::CheckPushed, Call::CheckRaw, Call::PushedToRaw, Call::RawToPushed] {
        for (what, more, list) in around(&partners) {
            let trial = full(call, &format!("the longest list, {what}"), list, partners.len());
            let trial = trial.sized(6, MATCHING_BYTES, more);
            trials.push(if call.has_tray() { trial.sized(TRAY, MATCHING_BYTES, 0) } else { trial });
        }
        if call.has_tray() {
            let name = "the longest list, a tray of a byte less";
            let trial = full(call, name, partners.clone(), partners.len() - 1);
            trials.push(trial.sized(TRAY, MATCHING_BYTES, -1));
        }
    }
    trials
}

/// A path of 15 edges, which is first in its class, in a tray that holds every path;
/// and in a tray of a byte less.
fn longest_paths() -> Vec<Trial> {
    let edges: Vec<(usize, usize)> = (0..15).map(|node| (node, node + 1)).collect();
    let schema = graph(16, &edges).to_sheet();
    let longest = path(0, &(0..15).collect::<Vec<_>>()).to_sheet();
    let asked = |what: &str, more: i64, sheet: Vec<u8>, less: usize| {
        let case = Case::new(what, Call::FirstPath, vec![schema.clone(), sheet]);
        let trial = Trial::new(case.with_tray(Case::MOST_PATH - less));
        trial.sized(2, PATH_BYTES, more).sized(TRAY, PATH_BYTES, -(less as i64))
    };
    let around = around(&longest)
        .map(|(what, more, sheet)| asked(&format!("the longest path, {what}"), more, sheet, 0));
    let short = asked("the longest path, a tray of a byte less", 0, longest, 1);
    [&around[..], &[short]].concat()
}

/// A chain of 222 steps, the longest that is known, in a tray that holds every
/// chain, and in trays around its length; and no chain, which needs no tray.
fn chains() -> Vec<Trial> {
    let question = longer_way();
    let sheets = vec![question.schema.to_sheet(), question.from.to_sheet(), question.to.to_sheet()];
    let whole = Case::new("the longest chain", Call::PathChain, sheets.clone());
    let whole = Trial::new(whole.with_tray(Case::MOST_CHAIN)).sized(TRAY, CHAIN_BYTES, 0);
    let needed = whole.outcome.answer.expect("a chain");
    let around = [needed - 1, needed, needed + 1].map(|tray| {
        let name = format!("the longest chain, a tray of {tray}");
        Trial::new(Case::new(name, Call::PathChain, sheets.clone()).with_tray(tray))
    });
    let none = [0, 1, 2].map(|tray| {
        let other = [&sheets[..2], &[path(1, &[]).to_sheet()]].concat();
        let name = format!("no chain, a tray of {tray}");
        Trial::new(Case::new(name, Call::PathChain, other).with_tray(tray))
    });
    [vec![whole], around.to_vec(), none.to_vec()].concat()
}

/// The longest mapping sheet, composed in a tray that holds every mapping, and in a tray of
/// a byte less; and checked.
fn longest_mappings() -> Vec<Trial> {
    let two = longest_composable();
    let composed = |name: &str, less: usize| {
        let case = two.case(name).with_tray(Case::MOST_MAPPING - less);
        Trial::new(case).sized(TRAY, MAPPING_BYTES, -(less as i64))
    };
    let whole = composed("the longest mapping", 0);
    let length = whole.outcome.answer.expect("accepted sheets");
    let ends = [&two.schemas[0], &two.schemas[2]].map(|schema| schema.to_sheet());
    let checked = around(&whole.outcome.tray[..length]).map(|(what, more, sheet)| {
        let name = format!("the longest mapping, {what}");
        let case = Case::new(name, Call::CheckMapping, [&ends[..], &[sheet]].concat());
        Trial::new(case).sized(3, MAPPING_BYTES, more)
    });
    let short = composed("the longest mapping, a tray of a byte less", 1);
    [&[whole, short][..], &checked].concat()
}

/// A call with a list for a run of 512 rows.
fn full(call: Call, name: &str, list: Vec<u8>, tray: usize) -> Trial {
    let (s, t, f) = (graph(2, &[]), graph(1, &[]), mapping(&[0, 0], &[]));
    let (run, book) = (instance(&[256, 256], &[]), instance(&[256], &[]));
    let sheets =
        vec![s.to_sheet(), t.to_sheet(), f.to_sheet(), run.to_sheet(), book.to_sheet(), list];
    Trial::new(Case::new(name, call, sheets).with_tray(tray))
}
