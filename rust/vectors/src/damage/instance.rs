//! Damage to instance sheets: 3, 9, 10, 11, and what comes first where two
//! apply.

use crate::random::Random;
use reference::plain::*;
use std::ops::RangeInclusive;

/// A way to damage an instance sheet.
#[derive(Debug, Clone, Copy, PartialEq, Eq, PartialOrd, Ord)]
pub enum InstanceDamage {
    /// The row counts are 513 together.
    OneRowTooMany,
    /// Every row count is the largest that its field has.
    ManyRows,
    /// Too many rows in a sheet that ends inside the counts: 1.
    ManyRowsCut,
    /// Too many rows in a sheet without the rest: 3.
    ManyRowsAlone,
    /// The sheet ends behind the counts: 1.
    CountsAlone,
    /// A link to the row after the last.
    DanglingByOne,
    /// A link to row 511.
    DanglingFar,
    /// A value one below its kind's smallest.
    BelowByOne,
    /// A value one above its kind's largest.
    AboveByOne,
    /// The largest value of 32 bits.
    AboveFar,
    /// A row where the sides of an equation lead to different rows.
    BentRow,
    /// A dangling link and a value off scale: 9.
    DanglingAndOffScale,
    /// A bent row and a value off scale: 10.
    OffScaleAndBent,
    /// A dangling link and a byte that follows: 2.
    DanglingAndTail,
}

use InstanceDamage::*;

impl InstanceDamage {
    /// All of them.
    pub const ALL: [InstanceDamage; 14] = [
        OneRowTooMany,
        ManyRows,
        ManyRowsCut,
        ManyRowsAlone,
        CountsAlone,
        DanglingByOne,
        DanglingFar,
        BelowByOne,
        AboveByOne,
        AboveFar,
        BentRow,
        DanglingAndOffScale,
        OffScaleAndBent,
        DanglingAndTail,
    ];

    /// The number that the sheet is sent back with.
    pub fn number(self) -> u8 {
        match self {
            ManyRowsCut | CountsAlone => 1,
            DanglingAndTail => 2,
            OneRowTooMany | ManyRows | ManyRowsAlone => 3,
            DanglingByOne | DanglingFar | DanglingAndOffScale => 9,
            BelowByOne | AboveByOne | AboveFar | OffScaleAndBent => 10,
            BentRow => 11,
        }
    }

    /// The damaged sheet.
    pub fn done_to(self, random: &mut Random, schema: &Schema, old: &Instance) -> Option<Vec<u8>> {
        let mut instance = old.clone();
        let counts_bytes = (10 * schema.nodes).div_ceil(8);
        match self {
            OneRowTooMany | ManyRowsAlone => {
                let table = random.below(schema.nodes);
                instance.rows[table] += 513 - instance.total_rows();
            }
            ManyRows | ManyRowsCut => instance.rows.fill(1023),
            CountsAlone => {}
            DanglingByOne | DanglingAndTail => {
                dangle(random, schema, &mut instance, |count| count)?;
            }
            DanglingFar => dangle(random, schema, &mut instance, |_| 511)?,
            BelowByOne => put_off_scale(random, schema, &mut instance, &[one_below])?,
            AboveByOne => put_off_scale(random, schema, &mut instance, &[one_above])?,
            AboveFar => put_off_scale(random, schema, &mut instance, &[far_above])?,
            BentRow => bend(random, schema, &mut instance)?,
            DanglingAndOffScale => {
                dangle(random, schema, &mut instance, |count| count)?;
                put_off_scale(random, schema, &mut instance, &[one_below, one_above])?;
            }
            OffScaleAndBent => {
                bend(random, schema, &mut instance)?;
                put_off_scale(random, schema, &mut instance, &[one_below, one_above])?;
            }
        }
        let mut sheet = instance.to_sheet();
        match self {
            ManyRowsCut => sheet.truncate(1 + random.below(counts_bytes - 1)),
            CountsAlone if sheet.len() == counts_bytes => return None,
            CountsAlone | ManyRowsAlone => sheet.truncate(counts_bytes),
            DanglingAndTail => sheet.push(0),
            _ => {}
        }
        Some(sheet)
    }
}

/// Makes a link lead to a row that is not there, named by its table's count.
fn dangle(
    random: &mut Random,
    schema: &Schema,
    instance: &mut Instance,
    row: impl Fn(usize) -> usize,
) -> Option<()> {
    let count = |edge: usize| instance.rows[schema.edges[edge].target];
    let mut edges: Vec<usize> = (0..schema.edges.len()).collect();
    edges.retain(|&edge| !instance.links[edge].is_empty() && count(edge) < 512);
    let edge = random.any_of(&edges)?;
    let target = row(count(edge));
    let source = random.below(instance.links[edge].len());
    instance.links[edge][source] = target;
    Some(())
}

/// From the values that a kind has one that it has not, if there is such a one.
pub(super) type OffScale = fn(&RangeInclusive<u32>) -> Option<u32>;

pub(super) fn one_below(range: &RangeInclusive<u32>) -> Option<u32> {
    range.start().checked_sub(1)
}

pub(super) fn one_above(range: &RangeInclusive<u32>) -> Option<u32> {
    range.end().checked_add(1)
}

pub(super) fn far_above(range: &RangeInclusive<u32>) -> Option<u32> {
    (!range.contains(&u32::MAX)).then_some(u32::MAX)
}

/// Makes some value one that its kind has not, on any of these sides.
fn put_off_scale(
    random: &mut Random,
    schema: &Schema,
    instance: &mut Instance,
    sides: &[OffScale],
) -> Option<()> {
    let mut choices = Vec::new();
    for (a, attribute) in schema.attributes.iter().enumerate() {
        let values = sides.iter().filter_map(|side| side(&RANGES[attribute.kind]));
        if !instance.values[a].is_empty() {
            choices.extend(values.map(|value| (a, value)));
        }
    }
    let (a, value) = random.any_of(&choices)?;
    let row = random.below(instance.values[a].len());
    instance.values[a][row] = value;
    Some(())
}

/// Makes the two sides of an equation lead to different rows, by another link.
fn bend(random: &mut Random, schema: &Schema, instance: &mut Instance) -> Option<()> {
    for _ in 0..20 {
        let edge = random.any_in(0..schema.edges.len())?;
        if instance.links[edge].is_empty() {
            continue;
        }
        let mut bent = instance.clone();
        let row = random.below(bent.links[edge].len());
        bent.links[edge][row] = random.below(bent.rows[schema.edges[edge].target]);
        let obeys = |rule: &Equation| {
            let mut rows = 0..bent.rows[rule.left.start];
            rows.all(|row| bent.follow(&rule.left, row) == bent.follow(&rule.right, row))
        };
        if !schema.equations.iter().all(obeys) {
            *instance = bent;
            return Some(());
        }
    }
    None
}
