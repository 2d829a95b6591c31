//! Sizes at their limits and one beyond them.

use crate::answer::result_length;
use crate::base::*;
use crate::build::*;
use crate::call::{Call, Case};
use crate::chains::chains;
use crate::first_paths::first_paths;
use crate::puzzles::complete_graph;
use crate::queries::queries;
use crate::questions::Question;
use reference::plain::*;

/// All limits, on sheets that are not long.
pub fn limits() -> Vec<Case> {
    let mut cases = Vec::new();
    cases.extend(counts_of_schemas());
    cases.extend(many_paths());
    cases.extend(ends_of_kinds());
    cases.extend(long_paths());
    cases.extend(rows_of_instances());
    cases.extend(rows_of_results());
    cases.extend(components());
    cases.extend(tables_without_rows());
    cases.extend(long_lifts());
    cases.extend([(4, 3, 6), (4, 4, 1), (4, 4, 6)].map(|(v, c, n)| complete_graph(v, c, n)));
    cases.extend(trays());
    cases.extend(first_paths());
    cases.extend(chains());
    cases.extend(queries());
    cases
}

/// The longest sheets: too long for a file of small cases.
pub fn longest() -> Vec<Case> {
    let mut wide = graph(2, &[(0, 1); 32]);
    wide.attributes = (0..16).map(|kind| Attribute { node: 0, kind: kind % 2 }).collect();
    let rows = |count: usize| Instance {
        rows: vec![count, 1],
        links: vec![vec![0; count]; 32],
        values: (0..16u32).map(|a| (0..count as u32).map(|r| r * 7919 + a).collect()).collect(),
    };
    let (s, f, i) = (wide.to_sheet(), identity(&wide).to_sheet(), rows(511).to_sheet());
    let same = vec![s.clone(), s.clone(), f, i.clone()];
    let dangling = Instance { rows: vec![511, 0], ..rows(511) };
    let list = Matching { partners: vec![(0..511).collect(), vec![0]] }.to_sheet();
    let sides = [same.clone(), vec![i.clone(), list]].concat();
    let dug = [vec![s.clone(); 4], vec![same[2].clone(); 3], vec![i.clone()]].concat();
    let announced = [base_s(), vec![0; 65_528]].concat();
    vec![
        Case::new("the longest instance", Call::CheckInstance, vec![s.clone(), i.clone()]),
        Case::new("the longest, cut", Call::CheckInstance, vec![s.clone(), i[..51_000].to_vec()]),
        Case::new("the longest, dangling", Call::CheckInstance, vec![s, dangling.to_sheet()]),
        Case::new("the longest, pulled", Call::Delta, same.clone()).with_tray(51_220),
        Case::new("the longest, pushed", Call::Sigma, same.clone()).with_tray(51_220),
        Case::new("the longest, joined", Call::Pi, same).with_tray(51_220),
        Case::new("the longest, dug", Call::Query, dug).with_tray(51_220),
        Case::new("the longest, matched", Call::CheckPushed, sides.clone()),
        Case::new("the longest, turned", Call::RawToPushed, sides).with_tray(576),
        Case::new("65,535 bytes", Call::CheckSchema, vec![announced]),
    ]
}

/// A schema with these counts.
fn counts(nodes: usize, edges: usize, attributes: usize, equations: usize) -> Schema {
    Schema {
        nodes,
        edges: vec![Edge { source: 0, target: 1 }; edges],
        attributes: vec![Attribute { node: 0, kind: 0 }; attributes],
        equations: vec![equation(0, &[], &[]); equations],
    }
}

fn counts_of_schemas() -> Vec<Case> {
    let check =
        |name: &str, schema: Schema| Case::new(name, Call::CheckSchema, vec![schema.to_sheet()]);
    vec![
        check("1 node", counts(1, 0, 0, 0)),
        check("16 nodes", counts(16, 0, 0, 0)),
        check("17 nodes", counts(17, 0, 0, 0)),
        check("32 edges", counts(2, 32, 0, 0)),
        check("33 edges", counts(2, 33, 0, 0)),
        check("16 attributes", counts(1, 0, 16, 0)),
        check("17 attributes", counts(1, 0, 17, 0)),
        check("32 equations", counts(1, 0, 0, 32)),
        check("33 equations", counts(1, 0, 0, 33)),
        check("every count at its limit", counts(16, 32, 16, 32)),
    ]
}

/// 16 nodes, 32 edges, 32 equations, 256 paths: a doubled chain of 5 steps, 8
/// and then 13 parallel edges, one edge more; twins are equal.
pub fn full_schema() -> Schema {
    let chain = (0..5).flat_map(|n| [(n, n + 1); 2]);
    let more = [[(6, 7); 8].as_slice(), &[(7, 8); 13], &[(9, 10)]].concat();
    let mut schema = graph(16, &chain.chain(more).collect::<Vec<_>>());
    let twins = (0..5).map(|n| equation(n, &[2 * n], &[2 * n + 1]));
    let eight = (10..17).map(|e| equation(6, &[e], &[e + 1]));
    let thirteen = (18..30).map(|e| equation(7, &[e], &[e + 1]));
    let way = |turns: usize| (0..5).map(|n| 2 * n + (turns >> n & 1)).collect::<Vec<_>>();
    let long = (0..8).map(|turns| equation(0, &way(turns), &way(31 - turns)));
    schema.equations = twins.chain(eight).chain(thirteen).chain(long).collect();
    schema
}

fn many_paths() -> Vec<Case> {
    let full = full_schema();
    let mut crowd = full.clone();
    crowd.edges[31] = Edge { source: 8, target: 9 };
    let mut free = full.clone();
    free.equations.clear();
    let same = identity(&full).to_sheet();
    let ask = |s: &Schema| {
        let (one, other) = (path(0, &[0, 2, 4, 6, 8]), path(0, &[1, 3, 5, 7, 9]));
        Question::new(s, one, other).firsts("two of 256 paths")
    };
    let asked = [ask(&full), ask(&free)].concat();
    let (full, crowd, free) = (full.to_sheet(), crowd.to_sheet(), free.to_sheet());
    let check = |name: &str, s: &Vec<u8>, t: &Vec<u8>| {
        Case::new(name, Call::CheckMapping, vec![s.clone(), t.clone(), same.clone()])
    };
    let checked = vec![
        Case::new("256 paths, 32 equations", Call::CheckSchema, vec![full.clone()]),
        Case::new("more than 256 paths", Call::CheckSchema, vec![crowd.clone()]),
        check("256 paths to themselves", &full, &full),
        check("256 paths without equations to those with", &free, &full),
        check("256 paths with equations to those without", &full, &free),
        check("too many paths of T", &full, &crowd),
    ];
    [checked, asked].concat()
}

/// Both sides of both ends of each kind, each in a run after the kind's smallest
/// value.
fn ends_of_kinds() -> Vec<Case> {
    let mut cases = Vec::new();
    for (kind, range) in RANGES.into_iter().enumerate() {
        let (smallest, largest) = range.into_inner();
        let mut schema = graph(1, &[]);
        schema.attributes.push(Attribute { node: 0, kind });
        let (below, above) = (smallest.checked_sub(1), largest.checked_add(1));
        let ends = [below, Some(smallest), Some(largest), above];
        let mut values: Vec<u32> = ends.into_iter().flatten().collect();
        values.dedup();
        for value in values {
            let run =
                Instance { rows: vec![2], links: vec![], values: vec![vec![smallest, value]] };
            let name = format!("kind {kind}, value {value}");
            let sheets = vec![schema.to_sheet(), run.to_sheet()];
            cases.push(Case::new(name, Call::CheckInstance, sheets));
        }
    }
    cases
}

/// Paths of 15 edges, the most that a path's length can say.
fn long_paths() -> Vec<Case> {
    let chain: Vec<(usize, usize)> = (0..15).map(|n| (n, n + 1)).collect();
    let (chain, edge) = (graph(16, &chain), graph(2, &[(0, 1)]));
    let whole: Vec<usize> = (0..15).collect();
    let f = mapping(&[0, 15], &[&whole]);
    let book = instance(&[2; 16], &[[1usize, 0].as_slice(); 15]);
    let run = instance(&[2, 2], &[&[1, 0]]);
    let asked = Question::new(&chain, path(0, &whole), path(0, &whole[..14]));
    let mapped = vec![edge.to_sheet(), chain.to_sheet(), f.to_sheet()];
    let with = |more: Instance| [mapped.clone(), vec![more.to_sheet()]].concat();
    let migrated = [
        Case::new("an image of 15 edges", Call::Delta, with(book)).with_tray(99),
        Case::new("an image of 15 edges", Call::Pi, with(run.clone())).with_tray(99),
        Case::new("an image of 15 edges", Call::Sigma, with(run)).with_tray(99),
    ];
    [&asked.firsts("15 and 14 edges")[..], &migrated].concat()
}

fn rows_of_instances() -> Vec<Case> {
    let s = graph(2, &[(0, 1)]);
    let rows = |sources: usize, targets: usize, link: usize| Instance {
        rows: vec![sources, targets],
        links: vec![vec![link; sources]],
        values: vec![],
    };
    let check = |name: &str, run: Instance| {
        Case::new(name, Call::CheckInstance, vec![s.to_sheet(), run.to_sheet()])
    };
    vec![
        check("a link to the last of 511 rows", rows(1, 511, 510)),
        check("a link beyond 511 rows", rows(1, 511, 511)),
        check("a link to row 256", rows(2, 510, 256)),
        check("512 rows in two tables", rows(200, 312, 311)),
        check("513 rows in two tables", rows(201, 312, 311)),
        check("links without rows to lead to", rows(1, 0, 0)),
        check("no rows", rows(0, 0, 0)),
        check("rows without links", rows(0, 512, 0)),
    ]
}

/// Results with 512 rows, and those that would have more.
fn rows_of_results() -> Vec<Case> {
    let (one, two) = (graph(1, &[]), graph(2, &[]));
    let both = mapping(&[0, 0], &[]).to_sheet();
    let last = mapping(&[1, 1], &[]).to_sheet();
    let rows = |rows: &[usize]| instance(rows, &[]).to_sheet();
    let case = |call: Call, f: &Vec<u8>, t: &Schema, more: Vec<Vec<u8>>| {
        let mapped = vec![two.to_sheet(), t.to_sheet(), f.clone()];
        let name = "rows of all tables together";
        Case::new(name, call, [mapped, more].concat()).with_tray(600)
    };
    let mut cases = vec![
        case(Call::Delta, &both, &one, vec![rows(&[256])]),
        case(Call::Delta, &both, &one, vec![rows(&[257])]),
        case(Call::Delta, &both, &one, vec![rows(&[512])]),
        case(Call::Sigma, &both, &one, vec![rows(&[256, 256])]),
        case(Call::Sigma, &both, &one, vec![rows(&[0, 512])]),
        case(Call::Pi, &both, &one, vec![rows(&[2, 256])]),
        case(Call::Pi, &both, &one, vec![rows(&[27, 19])]),
        case(Call::Pi, &last, &two, vec![rows(&[7, 73])]),
        case(Call::Pi, &last, &two, vec![rows(&[2, 256])]),
        case(Call::Pi, &both, &one, vec![rows(&[0, 512])]),
    ];
    for call in [Call::CheckPushed, Call::CheckRaw, Call::PushedToRaw, Call::RawToPushed] {
        let partners: Vec<usize> = (0..512).map(|row| row % 256).collect();
        let lists = [(256, vec![]), (257, vec![]), (257, vec![0]), (512, vec![])];
        for (book, list) in lists {
            cases.push(case(call, &both, &one, vec![rows(&[0, 0]), rows(&[book]), list]));
        }
        let full = vec![rows(&[256, 256]), rows(&[256]), list(&partners)];
        cases.push(case(call, &both, &one, full.clone()));
        cases.push(case(call, &both, &one, full).with_tray(575));
    }
    cases
}

/// Pi with 64 components in a table, and with 65.
fn components() -> Vec<Case> {
    let t = doubled_chain(7);
    let case = |name: &str, nodes: &[usize], rows: &[usize]| {
        let (s, f) = (graph(nodes.len(), &[]), mapping(nodes, &[]));
        let run = instance(rows, &[]);
        let sheets = vec![s.to_sheet(), t.to_sheet(), f.to_sheet(), run.to_sheet()];
        Case::new(name, Call::Pi, sheets).with_tray(600)
    };
    vec![
        case("64 components", &[6], &[1]),
        case("64 components without rows", &[6], &[0]),
        case("64 components of two rows", &[6], &[2]),
        case("65 components", &[6, 0], &[1, 1]),
        case("65 components without rows", &[6, 0], &[0, 0]),
        case("128 components", &[6, 6], &[1, 1]),
        case("64 components, the last without rows", &[5, 5], &[2, 0]),
        case("no component in most tables", &[0], &[3]),
    ]
}

/// Tables without rows, and without preimage.
fn tables_without_rows() -> Vec<Case> {
    let none = instance(&[0, 0, 0], &[&[], &[]]);
    let none = Instance { values: vec![vec![], vec![]], ..none }.to_sheet();
    let empty = |call: Call| {
        let sheets = vec![base_s(), base_t(), base_f(), none.clone()];
        Case::new("no rows", call, sheets).with_tray(8)
    };
    let (s, f) = (graph(1, &[]), mapping(&[0], &[]));
    let run = instance(&[2], &[]);
    let case = |call: Call, t: Schema| {
        let sheets = vec![s.to_sheet(), t.to_sheet(), f.to_sheet(), run.to_sheet()];
        Case::new("a table without preimage", call, sheets).with_tray(8)
    };
    vec![
        empty(Call::Sigma),
        empty(Call::Pi),
        case(Call::Sigma, graph(2, &[(1, 0)])),
        case(Call::Sigma, graph(2, &[(0, 1)])),
        case(Call::Pi, graph(2, &[(1, 0)])),
        case(Call::Pi, graph(2, &[(0, 1)])),
        case(Call::Sigma, graph(16, &[])),
        case(Call::Pi, graph(16, &[])),
    ]
}

/// Edges of T over which S has no edge but a longer path, equal to them by an
/// equation of T, and not so without it.
fn long_lifts() -> Vec<Case> {
    let s = graph(4, &[(0, 1), (1, 2), (2, 3)]);
    let f = mapping(&[0, 1, 2, 3], &[&[0], &[1], &[2]]);
    let run = instance(&[2, 3, 2, 4], &[&[2, 0], &[1, 0, 1], &[3, 0]]);
    let mut free = graph(4, &[(0, 1), (1, 2), (2, 3), (0, 2), (0, 3)]);
    let case = |t: &Schema| {
        let sheets = vec![s.to_sheet(), t.to_sheet(), f.to_sheet(), run.to_sheet()];
        Case::new("lifts of two and three edges", Call::Sigma, sheets).with_tray(64)
    };
    let without = case(&free);
    free.equations.push(equation(0, &[0, 1], &[3]));
    let with_one = case(&free);
    free.equations.push(equation(0, &[4], &[3, 2]));
    vec![without, with_one, case(&free)]
}

/// Trays of every length up to two bytes more than the result has.
fn trays() -> Vec<Case> {
    let same = hex("01 10 00");
    let sides = |partners: &[usize]| {
        vec![base_s(), base_t(), base_f(), base_run(), base_book(), list(partners)]
    };
    let calls = [
        (Call::Delta, vec![base_s(), base_t(), base_f(), base_book()]),
        (Call::Sigma, vec![base_s(), base_t(), base_f(), base_run()]),
        (Call::Pi, vec![base_t(), base_t(), same, base_book()]),
        (Call::PushedToRaw, sides(&[2, 0, 1, 0, 1])),
        (Call::RawToPushed, sides(&[2, 0, 0, 1, 1])),
    ];
    let mut cases = Vec::new();
    for (call, sheets) in calls {
        let case = |length: usize| {
            Case::new(format!("a tray of {length}"), call, sheets.clone()).with_tray(length)
        };
        let needed = result_length(&case(0)).expect("an accepted call");
        cases.extend((0..needed + 3).map(case));
    }
    cases
}
