//! Causes in a path: 1, 2 and 4.

use super::{fault_cause, Cause};
use crate::lent::Lent;
use crate::path::Path;
use crate::schema::Schema;

pub(super) fn causes(lent: &Lent, schema: &Schema) -> Vec<Cause> {
    match Path::from_sheet(&lent.sheet) {
        Err(fault) => vec![fault_cause(lent, &fault, None)],
        Ok(path) => {
            let fault = fault_of(schema, &path);
            let mend = "name a node, and links that lead on from it";
            fault.map(|what| Cause::new(&lent.file, what).mend(mend)).into_iter().collect()
        }
    }
}

/// Why a path is none of the schema, if it is none.
pub(super) fn fault_of(schema: &Schema, path: &Path) -> Option<String> {
    let text = path.text(schema);
    if path.start >= schema.nodes.len() {
        let (start, last) = (path.start, schema.nodes.len().saturating_sub(1));
        return Some(format!("path {text} starts at node {start}, but the nodes are 0 to {last}"));
    }
    let mut node = path.start;
    for &number in &path.links {
        let Some(link) = schema.links.get(number) else {
            let count = schema.links.len();
            return Some(format!("path {text} has link {number}, but there are {count} links"));
        };
        if link.source != node {
            let (name, here) = (schema.link_name(number), schema.node_name(node));
            return Some(format!(
                "path {text} has come to {here}, where link {name} does not start"
            ));
        }
        node = link.target;
    }
    None
}
