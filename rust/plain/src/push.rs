//! Sigma.

use crate::bits::Writer;
use crate::instance::Instance;
use crate::mapping::{Mapping, Side};
use crate::Judged;

const UNEVEN: u8 = 12;
const SMALL_TRAY: u8 = 16;

/// Sigma's result in the tray: its byte length.
pub fn push(s: &Side, t: &Side, f: &Mapping, i: &Instance, tray: &mut [u8]) -> Judged<usize> {
    let lifts = f.lifts(s, t).ok_or(UNEVEN)?;
    let (t_side, t) = (t, &t.schema);
    let mut rows = vec![0; t.nodes];
    let first: Vec<usize> = f
        .nodes
        .iter()
        .zip(&i.rows)
        .map(|(&d, &count)| {
            let first = rows[usize::from(d)];
            rows[usize::from(d)] += count;
            first
        })
        .collect();
    let of = |node: u8| rows[usize::from(node)];
    let links: usize = t.edges.iter().map(|edge| of(edge.source)).sum();
    let values: usize = t.attributes.iter().map(|attribute| of(attribute.node)).sum();
    let bytes = (10 * t.nodes + 9 * links + 32 * values).div_ceil(8);
    let tray = tray.get_mut(..bytes).ok_or(SMALL_TRAY)?;
    let mut writer = Writer::new(tray);
    rows.iter().for_each(|&count| writer.put(10, count as u32));
    for (number, edge) in t.edges.iter().enumerate() {
        for c in f.fibre(edge.source) {
            let lift = lifts.over(t_side, c, number as u8);
            let (edges, end) =
                (s.paths.edges(s.schema.nodes, lift), usize::from(s.paths.end[lift]));
            for row in 0..i.rows[c] {
                writer.put(9, (first[end] + i.follow(&edges, row)) as u32);
            }
        }
    }
    for (b, attribute) in t.attributes.iter().enumerate() {
        for c in f.fibre(attribute.node) {
            for a in f.columns_over(&s.schema, c, b) {
                i.values[a].iter().for_each(|&value| writer.put(32, value));
            }
        }
    }
    Ok(writer.finish())
}
