//! The query on the base example and at its limits, and which refusal comes first
//! where two apply.

use crate::answer::result_length;
use crate::base::{base_run, base_s};
use crate::build::*;
use crate::call::Case;
use crate::digs::Dig;
use reference::plain::*;

/// All of them.
pub fn queries() -> Vec<Case> {
    let mut cases = vec![base_dig().case("the base example")];
    cases.extend(pairs_of_tables());
    cases.extend(rows_of_results());
    cases.extend(components());
    cases.extend(no_rows());
    cases.extend(long_paths());
    cases.extend(fault_by_fault());
    cases.extend(place_by_place());
    cases.extend(trays());
    cases
}

/// The base example's run: its tables in another order; to them the pairs of a dent and
/// a loss at one joint; dents and losses in one table, and the pairs beside it.
pub fn base_dig() -> Dig {
    let s1 = Schema::accept(&base_s()).expect("the base example");
    let run = Instance::accept(&s1, &base_run()).expect("the base example");
    let stations = |nodes: &[usize]| -> Vec<Attribute> {
        nodes.iter().map(|&node| Attribute { node, kind: 1 }).collect()
    };
    let mut s2 = graph(3, &[(0, 2), (1, 2)]);
    s2.attributes = stations(&[0, 1]);
    let mut s3 = graph(4, &[(0, 2), (1, 2), (3, 0), (3, 1)]);
    s3.attributes = stations(&[0, 1]);
    s3.equations = vec![equation(3, &[2, 0], &[3, 1])];
    let mut s4 = graph(3, &[(0, 1), (2, 0), (2, 0)]);
    s4.attributes = stations(&[0]);
    s4.equations = vec![equation(2, &[1, 0], &[2, 0])];
    let with = |attributes: &[usize], f: Mapping| Mapping { attributes: attributes.to_vec(), ..f };
    Dig {
        schemas: [s1, s2, s3, s4],
        f: with(&[0, 1], mapping(&[0, 2, 1], &[&[0], &[1]])),
        g: with(&[0, 1], mapping(&[0, 1, 2], &[&[0], &[1]])),
        h: with(&[0, 0], mapping(&[0, 0, 1, 2], &[&[0], &[0], &[1], &[2]])),
        run,
    }
}

/// Tables without links, by the node of each of F, G and H.
fn tables(schemas: [usize; 4], maps: [&[usize]; 3], rows: &[usize]) -> Dig {
    let [f, g, h] = maps.map(|nodes| mapping(nodes, &[]));
    Dig { schemas: schemas.map(|nodes| graph(nodes, &[])), f, g, h, run: instance(rows, &[]) }
}

/// Dents, joints and losses of the base example, without links: dents with joints and
/// losses with joints, in one table.  And document 01's case 6 between an identity and
/// another.
fn pairs_of_tables() -> Vec<Case> {
    let both = tables([3, 4, 2, 1], [&[0, 1, 2, 1], &[0, 0, 1, 1], &[0, 0]], &[2, 2, 1]);
    let pair = graph(3, &[(0, 1), (0, 2)]);
    let mut six = tables([2, 2, 3, 3], [&[0, 1], &[1, 2], &[0, 1, 2]], &[2, 3]);
    six.schemas[2] = pair.clone();
    six.h = identity(&pair);
    six.schemas[3] = pair;
    vec![both.case("pairs in one table"), six.case("case 6, in a query")]
}

/// 512 rows of Delta and of Pi, and 513.
fn rows_of_results() -> Vec<Case> {
    let pulled = |nodes: &[usize], each: usize| {
        // All but the last table are the run's first; the last, which has no row, leaves
        // Pi none.
        let over = vec![0; nodes.len()];
        tables([2, nodes.len(), 1, 1], [nodes, &over, &[0]], &[each, 0])
    };
    let joined = |rows: &[usize]| tables([2, 2, 1, 1], [&[0, 1], &[0, 0], &[0]], rows);
    let kept = tables([2, 2, 2, 1], [&[1, 0], &[1, 0], &[0, 0]], &[255, 257]);
    vec![
        pulled(&[0, 0, 1], 256).case("512 rows of Delta"),
        pulled(&[0, 0, 0, 1], 171).case("513 rows of Delta"),
        joined(&[2, 256]).case("512 rows of Pi"),
        joined(&[27, 19]).case("513 rows of Pi"),
        kept.case("512 rows of each"),
    ]
}

/// A table of the third schema with 64 components, and with 65.
fn components() -> Vec<Case> {
    let dig = |nodes: &[usize], rows: usize| {
        let once: Vec<usize> = vec![0; nodes.len()];
        let mut dig = tables([1, nodes.len(), 1, 1], [&once, nodes, &[]], &[rows]);
        dig.schemas[2] = doubled_chain(7);
        dig.h = identity(&dig.schemas[2]);
        dig.schemas[3] = doubled_chain(7);
        dig
    };
    vec![
        dig(&[6], 1).case("64 components"),
        dig(&[6, 0], 1).case("65 components"),
        dig(&[6, 0], 0).case("65 components without rows"),
    ]
}

/// A run without rows; tables of the third schema without component, which have one row
/// each; a table of the fourth that nothing goes to.
fn no_rows() -> Vec<Case> {
    let none = Instance { values: vec![vec![]; 2], ..instance(&[0; 3], &[&[], &[]]) };
    let alone = tables([1, 1, 3, 2], [&[0], &[2], &[1, 1, 1]], &[2]);
    let empty = tables([1, 1, 2, 1], [&[0], &[0], &[0, 0]], &[0]);
    vec![
        Dig { run: none, ..base_dig() }.case("no rows"),
        alone.case("tables without component"),
        empty.case("no rows, and a table without component"),
    ]
}

/// Images of 15 edges under F, G and H.
fn long_paths() -> Vec<Case> {
    let nodes: Vec<(usize, usize)> = (0..15).map(|n| (n, n + 1)).collect();
    let whole: Vec<usize> = (0..15).collect();
    let (chain, edge) = (graph(16, &nodes), graph(2, &[(0, 1)]));
    let along = || mapping(&[0, 15], &[&whole]);
    let run = instance(&[2; 16], &[[1usize, 0].as_slice(); 15]);
    let same = || identity(&chain);
    let four = [&chain, &edge, &chain, &chain].map(Schema::clone);
    let dig = Dig { schemas: four, f: along(), g: along(), h: same(), run: run.clone() };
    let four = [&chain, &chain, &chain, &chain].map(Schema::clone);
    let all = Dig { schemas: four, f: same(), g: same(), h: same(), run };
    let even = Dig { schemas: [&chain, &edge, &edge, &chain].map(Schema::clone), ..dig.clone() };
    let even = Dig { g: identity(&edge), h: along(), ..even };
    vec![dig.case("15 edges of F and G"), even.case("15 edges of H"), all.case("16 tables")]
}

/// What is wrong with all sheets together, in the order in which it is told.
#[derive(Debug, Clone, Copy, PartialEq, Eq, PartialOrd, Ord)]
pub enum Fault {
    /// The third schema has a column that the second has not.
    Unpaired,
    /// A table of the third schema has 65 components.
    Wide,
    /// The fourth schema has an edge that nothing lies over.
    Uneven,
    /// Delta has more than 512 rows.
    DeltaOverfull,
    /// Pi has more than 512 rows.
    PiOverfull,
    /// The tray has no byte.
    SmallTray,
}

impl Fault {
    /// All of them, in order.
    pub const ALL: [Fault; 6] = [
        Fault::Unpaired,
        Fault::Wide,
        Fault::Uneven,
        Fault::DeltaOverfull,
        Fault::PiOverfull,
        Fault::SmallTray,
    ];

    /// Its number.
    pub fn number(self) -> u8 {
        match self {
            Fault::Unpaired => 13,
            Fault::Wide => 14,
            Fault::Uneven => 12,
            Fault::DeltaOverfull | Fault::PiOverfull => 15,
            Fault::SmallTray => 16,
        }
    }
}

/// A dig with these faults: the first table lies at the end of a doubled chain, whose
/// start has 64 components; the second twice and the third beside it.
fn faulty(faults: &[Fault]) -> Dig {
    let has = |fault: Fault| faults.contains(&fault);
    let mut s3 = doubled_chain(7);
    s3.nodes = 8;
    let h = identity(&s3);
    let mut s4 = s3.clone();
    let (mut f, mut g) = (mapping(&[0, 1, 1, 2], &[]), mapping(&[6, 7, 7, 7], &[]));
    if has(Fault::Wide) {
        f.nodes.push(0);
        g.nodes.push(0);
    }
    if has(Fault::Uneven) {
        s4.nodes = 9;
        s4.edges.push(Edge { source: 0, target: 8 });
    }
    let many = if has(Fault::DeltaOverfull) { 257 } else { 30 };
    let run = instance(&[1, many, usize::from(has(Fault::PiOverfull))], &[]);
    let mut dig = Dig { schemas: [graph(3, &[]), graph(f.nodes.len(), &[]), s3, s4], f, g, h, run };
    if has(Fault::Unpaired) {
        let column = Attribute { node: 7, kind: 0 };
        dig.schemas[2].attributes.push(column);
        dig.schemas[3].attributes.push(column);
        dig.h.attributes.push(0);
    }
    dig
}

/// No fault, each fault, each two, all; and each with a run that is cut, which is told
/// before.
fn fault_by_fault() -> Vec<Case> {
    let all = Fault::ALL;
    let two = |one: usize| (one..all.len()).map(move |other| vec![all[one], all[other]]);
    let mut sets: Vec<Vec<Fault>> = (0..all.len()).flat_map(two).collect();
    sets.extend([vec![], all.to_vec()]);
    let mut cases = Vec::new();
    for mut faults in sets {
        faults.dedup();
        let tray = if faults.contains(&Fault::SmallTray) { 0 } else { 200 };
        cases.push(faulty(&faults).case(format!("faults {faults:?}")).with_tray(tray));
        if let [fault] = faults[..] {
            let mut case = faulty(&[fault]).case(format!("{fault:?} and a cut run"));
            case.sheets[7].pop();
            cases.push(case.with_tray(tray));
        }
    }
    cases
}

/// Each two sheets of the base example empty: the earlier is told.
fn place_by_place() -> Vec<Case> {
    let mut cases = Vec::new();
    for one in 0..8 {
        for other in one..8 {
            let mut case = base_dig().case(format!("sheets {} and {} empty", one + 1, other + 1));
            case.sheets[one].clear();
            case.sheets[other].clear();
            cases.push(case.with_tray(30));
        }
    }
    cases
}

/// Trays of every length up to two bytes more than the result has.
fn trays() -> Vec<Case> {
    let case = |length: usize| base_dig().case(format!("a tray of {length}")).with_tray(length);
    let needed = result_length(&case(0)).expect("an accepted query");
    (0..needed + 3).map(case).collect()
}
