//! Every call on the base example, and on sheets of full size.

use crate::base::*;
use crate::build::*;
use crate::call::{Call, Case};
use crate::change_limits::base_dent;
use crate::composable::Composable;
use crate::compositions::base_composable;
use crate::digs::Dig;
use crate::queries::base_dig;
use crate::trays::{Change, Trays};
use reference::plain::*;

/// Every call on document 01's base example.
pub fn base() -> Vec<Case> {
    let (s, t, f, run, book) = (base_s(), base_t(), base_f(), base_run(), base_book());
    let sides = |partners: &[usize]| {
        let list = list(partners);
        vec![s.clone(), t.clone(), f.clone(), run.clone(), book.clone(), list]
    };
    let (pushed, raw) = (sides(&[2, 0, 1, 0, 1]), sides(&[2, 0, 0, 1, 1]));
    let trivial = path(0, &[]).to_sheet();
    let same = identity(&Schema::accept(&t).expect("the base example")).to_sheet();
    let mapped = |more: &Vec<u8>| vec![s.clone(), t.clone(), f.clone(), more.clone()];
    let cases = [
        (Call::CheckSchema, vec![s.clone()]),
        (Call::CheckMapping, vec![s.clone(), t.clone(), f.clone()]),
        (Call::CheckInstance, vec![s.clone(), run.clone()]),
        (Call::FirstPath, vec![s.clone(), trivial.clone()]),
        (Call::PathChain, vec![s.clone(), trivial.clone(), trivial]),
        (Call::Delta, mapped(&book)),
        (Call::Sigma, mapped(&run)),
        (Call::Pi, vec![t.clone(), t.clone(), same, book.clone()]),
        (Call::CheckPushed, pushed.clone()),
        (Call::CheckRaw, raw.clone()),
        (Call::PushedToRaw, pushed),
        (Call::RawToPushed, raw),
        (Call::Query, base_dig().sheets()),
        (Call::Compose, base_composable().sheets()),
    ];
    let mut cases = cases.map(|(call, sheets)| with_room("base", call, sheets)).to_vec();
    let changes = [Change::add(0, &base_dent()), Change::withdraw(0, 0)];
    for (call, change) in Call::CHANGES.into_iter().zip(changes) {
        let trays = Trays::with_room([s.clone(), t.clone(), f.clone(), run.clone()]);
        cases.push(trays.case(format!("base.{}", call.name()), change));
    }
    cases
}

/// The case of a size, with a tray that holds every result.
fn with_room(size: &str, call: Call, sheets: Vec<Vec<u8>>) -> Case {
    let most = match call {
        Call::FirstPath => Case::MOST_PATH,
        Call::PathChain => Case::MOST_CHAIN,
        Call::Compose => Case::MOST_MAPPING,
        _ => Case::MOST_RESULT,
    };
    Case::new(format!("{size}.{}", call.name()), call, sheets).with_tray(most)
}

/// 8 nodes, 16 edges, 8 columns, 16 equations, 128 paths: a doubled chain of 5
/// steps and 6 parallel edges; twins are equal.
pub fn half_schema() -> Schema {
    let chain = (0..5).flat_map(|n| [(n, n + 1); 2]);
    let mut schema = graph(8, &chain.chain([(6, 7); 6]).collect::<Vec<_>>());
    let twins = (0..5).map(|n| equation(n, &[2 * n], &[2 * n + 1]));
    let parallel = (10..15).map(|e| equation(6, &[e], &[e + 1]));
    let way = |turns: usize| (0..5).map(|n| 2 * n + (turns >> n & 1)).collect::<Vec<_>>();
    let long = (0..6).map(|turns| equation(0, &way(turns), &way(31 - turns)));
    schema.equations = twins.chain(parallel).chain(long).collect();
    schema.attributes = (0..8).map(|node| Attribute { node, kind: node % 2 }).collect();
    schema
}

/// Two copies of a schema, one after the other, and the mapping to it.
pub fn two_copies(t: &Schema) -> (Schema, Mapping) {
    let (nodes, edges) = (t.nodes, t.edges.len());
    let moved = |p: &Path| Path {
        start: p.start + nodes,
        edges: p.edges.iter().map(|edge| edge + edges).collect(),
    };
    let mut s = t.clone();
    s.nodes += nodes;
    s.edges.extend(
        t.edges.iter().map(|e| Edge { source: e.source + nodes, target: e.target + nodes }),
    );
    s.attributes.extend(t.attributes.iter().map(|a| Attribute { node: a.node + nodes, ..*a }));
    let second = |e: &Equation| Equation { left: moved(&e.left), right: moved(&e.right) };
    s.equations.extend(t.equations.iter().map(second));
    let once = identity(t);
    let f = Mapping {
        nodes: [once.nodes.clone(), once.nodes].concat(),
        edges: [once.edges.clone(), once.edges].concat(),
        attributes: [once.attributes.clone(), once.attributes].concat(),
    };
    (s, f)
}

/// The mapping of two copies of a schema to themselves that sends each to the other.
fn exchanged(copies: &Schema) -> Mapping {
    let other = |number: usize, count: usize| (number + count / 2) % count;
    let others = |count: usize| (0..count).map(move |number| other(number, count));
    Mapping {
        nodes: others(copies.nodes).collect(),
        edges: others(copies.edges.len()).map(|edge| vec![edge]).collect(),
        attributes: others(copies.attributes.len()).collect(),
    }
}

/// The query at full size: each schema has two copies of one, 256 paths, and F, G and H
/// send each copy to the other; Delta, Pi and Sigma have 512 rows each, as the run.
pub fn full_dig() -> Dig {
    let (s, _) = two_copies(&half_schema());
    let [f, g, h] = [(); 3].map(|()| exchanged(&s));
    let run = rows(&s, 32);
    Dig { schemas: [(); 4].map(|()| s.clone()), f, g, h, run }
}

/// Two mappings at full size: each schema has two copies of one, 256 paths, and F and G send
/// each copy to the other.
pub fn full_composable() -> Composable {
    let (s, _) = two_copies(&half_schema());
    let mappings = vec![exchanged(&s); 2];
    Composable { schemas: vec![s; 3], mappings }
}

/// An instance with so many rows in each table; twin links are equal.
pub fn rows(schema: &Schema, each: usize) -> Instance {
    let link = |edge: &Edge| {
        let row = |row: usize| (7 * row + edge.source) % each;
        (0..each).map(row).collect()
    };
    let column = |attribute: &Attribute| {
        let value = |row: usize| (2_654_435_761 * (row + 600 * attribute.node)) as u32;
        (0..each).map(value).collect()
    };
    Instance {
        rows: vec![each; schema.nodes],
        links: schema.edges.iter().map(link).collect(),
        values: schema.attributes.iter().map(column).collect(),
    }
}

/// Every call on sheets of full size: S with 16 nodes, 32 edges, 16 columns, 32
/// equations, 256 paths, the run with 512 rows; Sigma, the matching calls and the changes
/// along the mapping of two copies to one; the query with four such schemas, the composing
/// call with three.
pub fn full() -> Vec<Case> {
    let t = half_schema();
    let (s, f) = two_copies(&t);
    let (run, book) = (rows(&s, 32), rows(&t, 32));
    let same = identity(&s).to_sheet();
    let partners = || (0..32).collect::<Vec<usize>>();
    let raw = Matching { partners: (0..16).map(|_| partners()).collect() };
    let pushed = raw.to_pushed(&t, &f).to_sheet();
    let raw = raw.to_sheet();
    // The book's own rows, pulled back: what the lists are matchings of.
    let pulled = reference::migrate::delta(&s, &f, &book).expect("512 rows").to_sheet();
    let (s, t, f) = (s.to_sheet(), t.to_sheet(), f.to_sheet());
    let (run, book) = (run.to_sheet(), book.to_sheet());
    let mapped = |more: &Vec<u8>| vec![s.clone(), t.clone(), f.clone(), more.clone()];
    let sides = |list: &Vec<u8>| [mapped(&pulled), vec![book.clone(), list.clone()]].concat();
    let way = |turns: usize| (0..5).map(|n| 2 * n + (turns >> n & 1)).collect::<Vec<_>>();
    let (p, q) = (path(0, &way(3)).to_sheet(), path(0, &way(28)).to_sheet());
    let cases = [
        (Call::CheckSchema, vec![s.clone()]),
        (Call::CheckMapping, vec![s.clone(), t.clone(), f.clone()]),
        (Call::CheckInstance, vec![s.clone(), run.clone()]),
        (Call::FirstPath, vec![s.clone(), q.clone()]),
        (Call::PathChain, vec![s.clone(), p, q]),
        (Call::Delta, mapped(&book)),
        (Call::Sigma, mapped(&run)),
        (Call::Pi, vec![s.clone(), s.clone(), same, run.clone()]),
        (Call::CheckPushed, sides(&pushed)),
        (Call::CheckRaw, sides(&raw)),
        (Call::PushedToRaw, sides(&pushed)),
        (Call::RawToPushed, sides(&raw)),
        (Call::Query, full_dig().sheets()),
        (Call::Compose, full_composable().sheets()),
    ];
    let mut cases = cases.map(|(call, sheets)| with_room("full", call, sheets)).to_vec();
    cases.extend(full_changes());
    cases
}

/// A row added to 511 at full size, and a row withdrawn from 512: of the first table, which
/// no link leads to, its last and its first.
fn full_changes() -> [Case; 2] {
    let t = half_schema();
    let (s, f) = two_copies(&t);
    let run = rows(&s, 32);
    let less = reference::rows::withdrawn(&s, &run, 0, 31).expect("a row that nothing links to");
    let columns = s.attributes_at(0).into_iter();
    let last = Row {
        links: s.edges_from(0).into_iter().map(|edge| run.links[edge][31]).collect(),
        values: columns.map(|column| run.values[column][31]).collect(),
    };
    let change = |call: Call, run: &Instance, change: Change| {
        let sheets = [s.to_sheet(), t.to_sheet(), f.to_sheet(), run.to_sheet()];
        Trays::with_room(sheets).case(format!("full.{}", call.name()), change)
    };
    [
        change(Call::AddRow, &less, Change::add(0, &last)),
        change(Call::WithdrawRow, &run, Change::withdraw(0, 0)),
    ]
}

/// Sigma at full size but for the number of rows.
pub fn grown(total: usize) -> Case {
    let t = half_schema();
    let (s, f) = two_copies(&t);
    let run = rows(&s, total / 16).to_sheet();
    let sheets = vec![s.to_sheet(), t.to_sheet(), f.to_sheet(), run];
    Case::new(format!("rows.{total}"), Call::Sigma, sheets).with_tray(Case::MOST_RESULT)
}
