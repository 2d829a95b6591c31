//! Instance sheets.

use crate::bits::Reader;
use crate::schema::Schema;
use crate::Judged;

const COUNT: u8 = 3;
const DANGLING: u8 = 9;
const OFF_SCALE: u8 = 10;
const BENT_ROW: u8 = 11;

/// The smallest and the largest value by kind.
const RANGES: [(u32, u32); 16] = [
    (0, 4294967295),
    (0, 4294967295),
    (1, 720),
    (0, 1000),
    (0, 20000),
    (0, 5000),
    (0, 5000),
    (0, 1600),
    (0, 25000),
    (0, 4000),
    (0, 65535),
    (0, 86399),
    (0, 10000),
    (0, 4294967295),
    (0, 1),
    (0, 0),
];

/// An accepted instance.
pub struct Instance {
    pub rows: Vec<usize>,
    pub links: Vec<Vec<u16>>,
    pub values: Vec<Vec<u32>>,
}

impl Instance {
    /// Reads and judges an instance sheet.
    pub fn read(schema: &Schema, sheet: &[u8]) -> Judged<Self> {
        let instance = Self::decode(schema, sheet)?;
        instance.judge(schema)?;
        Ok(instance)
    }

    fn decode(schema: &Schema, sheet: &[u8]) -> Judged<Self> {
        let mut reader = Reader::new(sheet);
        reader.need(10 * schema.nodes)?;
        let rows: Vec<usize> = (0..schema.nodes).map(|_| reader.take(10) as usize).collect();
        if rows.iter().sum::<usize>() > 512 {
            return Err(COUNT);
        }
        let of = |node: u8| rows[usize::from(node)];
        let links: usize = schema.edges.iter().map(|edge| of(edge.source)).sum();
        let values: usize = schema.attributes.iter().map(|attribute| of(attribute.node)).sum();
        reader.need(9 * links + 32 * values)?;
        let links = schema
            .edges
            .iter()
            .map(|edge| (0..of(edge.source)).map(|_| reader.take(9) as u16).collect::<Vec<u16>>());
        let links: Vec<Vec<u16>> = links.collect();
        let values = schema.attributes.iter().map(|attribute| {
            (0..of(attribute.node)).map(|_| reader.take(32)).collect::<Vec<u32>>()
        });
        let values: Vec<Vec<u32>> = values.collect();
        reader.finish()?;
        Ok(Instance { rows, links, values })
    }

    fn judge(&self, schema: &Schema) -> Judged<()> {
        for (edge, targets) in schema.edges.iter().zip(&self.links) {
            let count = self.rows[usize::from(edge.target)];
            if targets.iter().any(|&row| usize::from(row) >= count) {
                return Err(DANGLING);
            }
        }
        for (attribute, column) in schema.attributes.iter().zip(&self.values) {
            let (smallest, largest) = RANGES[usize::from(attribute.kind)];
            // Below the smallest the difference wraps round, far beyond the largest's.
            if column.iter().any(|&value| value.wrapping_sub(smallest) > largest - smallest) {
                return Err(OFF_SCALE);
            }
        }
        for (start, left, right) in &schema.equations {
            let mut rows = 0..self.rows[usize::from(*start)];
            if rows.any(|row| self.follow(left, row) != self.follow(right, row)) {
                return Err(BENT_ROW);
            }
        }
        Ok(())
    }

    /// The row that edges lead to.
    #[inline]
    pub fn follow(&self, edges: &[u8], row: usize) -> usize {
        edges.iter().fold(row, |row, &edge| usize::from(self.links[usize::from(edge)][row]))
    }
}
