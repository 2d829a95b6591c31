//! Causes in a schema: 1 to 6.

use super::path::fault_of;
use super::{fault_cause, Cause};
use crate::bits::counted;
use crate::lent::LentSchema;
use crate::schema::{Equation, Schema};

pub(super) fn causes(lent: &LentSchema, number: u8) -> Vec<Cause> {
    let schema = match &lent.schema {
        Ok(schema) => schema,
        Err(fault) => return vec![fault_cause(&lent.lent, fault, None)],
    };
    match number {
        3 => count(lent, schema),
        4 => stray(lent, schema),
        5 => ring(lent, schema),
        6 => crowd(lent, schema),
        _ => Vec::new(),
    }
}

/// The count beyond its limit, at the line of the first one too many.
fn count(lent: &LentSchema, schema: &Schema) -> Vec<Cause> {
    let Some(what) = schema.count_beyond_limit() else { return Vec::new() };
    if schema.nodes.is_empty() {
        return vec![Cause::new(&lent.lent.file, what).mend("add a line `node NAME`")];
    }
    let counts = [
        (schema.nodes.len(), Schema::MOST_NODES, "node"),
        (schema.links.len(), Schema::MOST_LINKS, "link"),
        (schema.columns.len(), Schema::MOST_COLUMNS, "column"),
        (schema.equations.len(), Schema::MOST_EQUATIONS, "equation"),
    ];
    let beyond = counts.iter().position(|(count, most, _)| count > most);
    let Some(sort) = beyond else { return Vec::new() };
    let (count, most, noun) = counts[sort];
    let place = lent.lent.place(|lines| {
        let sorts = [&lines.nodes, &lines.links, &lines.columns, &lines.equations];
        sorts[sort].get(most)
    });
    vec![Cause::new(place, what).mend(format!("leave out {}", counted(count - most, noun)))]
}

fn stray(lent: &LentSchema, schema: &Schema) -> Vec<Cause> {
    let lent = &lent.lent;
    let last = schema.nodes.len().saturating_sub(1);
    let missing = |node: usize| node >= schema.nodes.len();
    let mut causes = Vec::new();
    for (number, link) in schema.links.iter().enumerate() {
        let place = lent.place(|lines| lines.links.get(number));
        for (end, node) in [("from", link.source), ("to", link.target)] {
            if missing(node) {
                let what =
                    format!("link {number} leads {end} node {node}, but the nodes are 0 to {last}");
                causes.push(Cause::new(&place, what).mend("correct the link or add the node"));
            }
        }
    }
    for (number, column) in schema.columns.iter().enumerate() {
        if missing(column.node) {
            let place = lent.place(|lines| lines.columns.get(number));
            let node = column.node;
            let what =
                format!("column {number} sits at node {node}, but the nodes are 0 to {last}");
            causes.push(Cause::new(place, what).mend("correct the column or add the node"));
        }
    }
    for (number, equation) in schema.equations.iter().enumerate() {
        if let Some(what) = equation_fault(schema, number, equation) {
            let place = lent.place(|lines| lines.equations.get(number));
            let cause = Cause::new(place, what);
            causes.push(cause.mend("let both sides start at one node and end at one node"));
        }
    }
    causes
}

fn equation_fault(schema: &Schema, number: usize, equation: &Equation) -> Option<String> {
    let (left, right) = (&equation.left, &equation.right);
    for side in [left, right] {
        if let Some(fault) = fault_of(schema, side) {
            return Some(format!("equation {number}: {fault}"));
        }
    }
    let text = schema.equation_text(equation);
    if left.start != right.start {
        let (left, right) = (schema.node_name(left.start), schema.node_name(right.start));
        return Some(format!(
            "equation {text}: the left side starts at {left}, the right at {right}"
        ));
    }
    let (left, right) = (left.end(schema)?, right.end(schema)?);
    if left != right {
        let (left, right) = (schema.node_name(left), schema.node_name(right));
        return Some(format!(
            "equation {text}: the left side ends at {left}, the right at {right}"
        ));
    }
    None
}

fn ring(lent: &LentSchema, schema: &Schema) -> Vec<Cause> {
    let Some(ring) = find_ring(schema) else { return Vec::new() };
    let names: Vec<String> = ring.iter().map(|&link| schema.link_name(link)).collect();
    let start = ring.first().and_then(|&link| schema.links.get(link));
    let start = start.map_or_else(String::new, |link| schema.node_name(link.source));
    let closing = ring.iter().max().copied().unwrap_or(0);
    let place = lent.lent.place(|lines| lines.links.get(closing));
    let verb = if names.len() == 1 { "leads" } else { "lead" };
    let what = format!("{} {verb} from {start} back to {start}", names.join(", "));
    vec![Cause::new(place, what).mend("take out one of these links")]
}

/// The links of a loop, from its first node on: from a node that is left after
/// taking away all nodes without links to nodes that are left, some link to a
/// node that is left can always be followed.
fn find_ring(schema: &Schema) -> Option<Vec<usize>> {
    let mut left: Vec<bool> = vec![true; schema.nodes.len()];
    let is_left = |left: &[bool], node: usize| left.get(node).copied().unwrap_or(false);
    let onward = |left: &[bool], node: usize| {
        let mut links = schema.links_from(node).into_iter();
        links.find(|&link| is_left(left, schema.links[link].target))
    };
    for _ in 0..schema.nodes.len() {
        for node in 0..schema.nodes.len() {
            left[node] = left[node] && onward(&left, node).is_some();
        }
    }
    let mut node = (0..schema.nodes.len()).find(|&node| left[node])?;
    let mut visited = Vec::new();
    let mut links: Vec<usize> = Vec::new();
    while !visited.contains(&node) {
        visited.push(node);
        let link = onward(&left, node)?;
        links.push(link);
        node = schema.links[link].target;
    }
    let first = visited.iter().position(|&earlier| earlier == node)?;
    Some(links.split_off(first))
}

fn crowd(lent: &LentSchema, schema: &Schema) -> Vec<Cause> {
    let counts = path_counts(schema);
    let total = counts.iter().fold(0u64, |sum, &count| sum.saturating_add(count));
    let Some((node, most)) = counts.iter().enumerate().max_by_key(|(_, &count)| count) else {
        return Vec::new();
    };
    let node = schema.node_name(node);
    let nodes = counted(schema.nodes.len(), "trivial one");
    let what = format!(
        "{total} paths ({nodes} counted), {most} of them from {node}; at most {}",
        Schema::MOST_PATHS
    );
    let mend = "take out links or tables; an equation does not make the paths fewer";
    vec![Cause::new(&lent.lent.file, what).mend(mend)]
}

/// The number of paths from each node of a schema without loops: the trivial
/// one, and those from each link's target.
fn path_counts(schema: &Schema) -> Vec<u64> {
    let mut counts = vec![0u64; schema.nodes.len()];
    for _ in 0..schema.nodes.len() {
        for node in 0..schema.nodes.len() {
            let links = schema.links_from(node).into_iter();
            let targets = links.filter_map(|link| counts.get(schema.links[link].target));
            counts[node] = targets.fold(1, |sum, &count| sum.saturating_add(count));
        }
    }
    counts
}
