//! The sheets that are measured.

use migration::{MOST_INSTANCE_BYTES, MOST_PATH_BYTES};
use reference::paths::all_paths;
use reference::plain::*;
use vectors::build::*;
use vectors::call::{Call, Case};
use vectors::chains::{long_way, longer_way};
use vectors::compositions::longest_composable;
use vectors::full::{base, full, grown};
use vectors::limits::{full_schema, longest};
use vectors::puzzles::complete_graph;

/// Every measured case; the names of a size begin with it.
pub fn inputs() -> Vec<Case> {
    let mut cases = base();
    cases.extend(full());
    cases.extend([64, 128, 256, 512].map(grown));
    cases.extend([64, 128, 256, 512].map(joined));
    cases.extend(worst());
    cases
}

/// Pi along the identity on two tables with 32 links between them, of so many rows in
/// all: a join that gives the run itself.
fn joined(rows: usize) -> Case {
    let s = graph(2, &[(0, 1); 32]);
    let images: Vec<[usize; 1]> = (0..32).map(|edge| [edge]).collect();
    let images: Vec<&[usize]> = images.iter().map(|image| &image[..]).collect();
    let half = rows / 2;
    let links: Vec<Vec<usize>> =
        (0..32).map(|edge| (0..half).map(|row| (row + edge) % half).collect()).collect();
    let links: Vec<&[usize]> = links.iter().map(|column| &column[..]).collect();
    let run = instance(&[half, half], &links);
    let f = mapping(&[0, 1], &images);
    let sheets = vec![s.to_sheet(), s.to_sheet(), f.to_sheet(), run.to_sheet()];
    Case::new(format!("join.{rows}"), Call::Pi, sheets).with_tray(MOST_INSTANCE_BYTES)
}

/// The longest sheets, the schemas that cost most to refuse or to accept, with their last
/// path, the longest chains and the longest composed mapping.
fn worst() -> Vec<Case> {
    let wide = longest().into_iter().find(|case| case.name == "the longest instance");
    let wide = Case { name: "worst.longest_instance".into(), ..wide.expect("the longest") };
    let mut cases = vec![wide];
    cases.extend(accepted_schemas());
    cases.extend(refused_schemas());
    cases.extend([
        pairs(),
        long_way().chain("worst.chain_220"),
        longer_way().chain("worst.chain_222"),
        longest_composable().case("worst.longest_mapping"),
        Case { name: "worst.no_colouring".into(), ..complete_graph(5, 4, 4) },
        Case { name: "worst.many_colourings".into(), ..complete_graph(4, 4, 6) },
    ]);
    cases
}

/// The schemas that cost most to accept, with their last path.
fn accepted_schemas() -> [Case; 4] {
    let ask = |name: &str, schema: Schema| {
        let last = all_paths(&schema).pop().expect("a path");
        let sheets = vec![schema.to_sheet(), last.to_sheet()];
        Case::new(format!("worst.{name}"), Call::FirstPath, sheets).with_tray(MOST_PATH_BYTES)
    };
    let chain = |rule: &dyn Fn(usize) -> Equation| {
        let mut schema = doubled_chain(7);
        schema.nodes = 16;
        schema.equations = (0..32).map(rule).collect();
        schema
    };
    let way = |turns: usize| (0..6).map(|n| 2 * n + (turns >> n & 1)).collect::<Vec<_>>();
    [
        ask("all_limits", full_schema()),
        ask("edges_for_twins", chain(&|n| equation(n % 6, &[2 * (n % 6)], &[2 * (n % 6) + 1]))),
        ask("trivial_paths", chain(&|_| equation(3, &[], &[]))),
        ask("longest_paths", chain(&|n| equation(0, &way(n), &way(63 - n)))),
    ]
}

/// The schemas that cost most to refuse.
fn refused_schemas() -> [Case; 4] {
    let check = |name: &str, schema: Schema| {
        Case::new(format!("worst.{name}"), Call::CheckSchema, vec![schema.to_sheet()])
    };
    let mut closed = doubled_chain(16);
    closed.edges.push(Edge { source: 15, target: 0 });
    let both = [[(0, 1); 16], [(1, 0); 16]].concat();
    [
        check("doubled_chain", doubled_chain(16)),
        check("closed_chain", closed),
        check("loops_at_one_node", graph(1, &[(0, 0); 32])),
        check("two_nodes_both_ways", graph(2, &both)),
    ]
}

/// Pi of 420 pairs of rows.
fn pairs() -> Case {
    let (s, t) = (graph(2, &[]), graph(3, &[(0, 1), (0, 2)]));
    let (f, run) = (mapping(&[1, 2], &[]), instance(&[20, 21], &[]));
    let sheets = vec![s.to_sheet(), t.to_sheet(), f.to_sheet(), run.to_sheet()];
    Case::new("worst.pairs", Call::Pi, sheets).with_tray(MOST_INSTANCE_BYTES)
}
