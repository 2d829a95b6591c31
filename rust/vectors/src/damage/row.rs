//! Damage to the sheet of a row that is added: 9, 10, 11, and what comes first where
//! two apply.

use super::instance::{far_above, one_above, one_below, OffScale};
use crate::random::Random;
use crate::rows::obeys;
use reference::plain::*;

/// A way to damage the sheet of a row.
#[derive(Debug, Clone, Copy, PartialEq, Eq, PartialOrd, Ord)]
pub enum RowDamage {
    /// A link to the row after the last.
    DanglingByOne,
    /// A link to row 511.
    DanglingFar,
    /// A value one below its kind's smallest.
    BelowByOne,
    /// A value one above its kind's largest.
    AboveByOne,
    /// The largest value of 32 bits.
    AboveFar,
    /// The sides of an equation lead to different rows.
    Bent,
    /// A dangling link and a value off scale: 9.
    DanglingAndOffScale,
    /// A bent row and a value off scale: 10.
    OffScaleAndBent,
    /// A dangling link and a byte that follows: 2.
    DanglingAndTail,
    /// A dangling link, and the last byte missing: 1.
    DanglingAndCut,
}

use RowDamage::*;

impl RowDamage {
    /// All of them.
    pub const ALL: [RowDamage; 10] = [
        DanglingByOne,
        DanglingFar,
        BelowByOne,
        AboveByOne,
        AboveFar,
        Bent,
        DanglingAndOffScale,
        OffScaleAndBent,
        DanglingAndTail,
        DanglingAndCut,
    ];

    /// The number that the row is sent back with.
    pub fn number(self) -> u8 {
        match self {
            DanglingAndCut => 1,
            DanglingAndTail => 2,
            DanglingByOne | DanglingFar | DanglingAndOffScale => 9,
            BelowByOne | AboveByOne | AboveFar | OffScaleAndBent => 10,
            Bent => 11,
        }
    }

    /// The damaged sheet of a row that fits the end of a table.
    pub fn done_to(
        self,
        random: &mut Random,
        schema: &Schema,
        run: &Instance,
        table: usize,
        old: &Row,
    ) -> Option<Vec<u8>> {
        let mut row = old.clone();
        match self {
            DanglingByOne | DanglingAndTail | DanglingAndCut | DanglingAndOffScale => {
                dangle(random, schema, run, table, &mut row, |count| count)?;
            }
            DanglingFar => dangle(random, schema, run, table, &mut row, |_| 511)?,
            BelowByOne => put_off_scale(random, schema, table, &mut row, &[one_below])?,
            AboveByOne => put_off_scale(random, schema, table, &mut row, &[one_above])?,
            AboveFar => put_off_scale(random, schema, table, &mut row, &[far_above])?,
            Bent | OffScaleAndBent => bend(random, schema, run, table, &mut row)?,
        }
        if matches!(self, DanglingAndOffScale | OffScaleAndBent) {
            put_off_scale(random, schema, table, &mut row, &[one_below, one_above])?;
        }
        let mut sheet = row.to_sheet();
        match self {
            DanglingAndTail => sheet.push(0),
            DanglingAndCut => drop(sheet.pop()),
            _ => {}
        }
        Some(sheet)
    }
}

/// Makes a link lead to a row that is not there, named by its table's count.
fn dangle(
    random: &mut Random,
    schema: &Schema,
    run: &Instance,
    table: usize,
    row: &mut Row,
    target: impl Fn(usize) -> usize,
) -> Option<()> {
    let edges = schema.edges_from(table);
    let count = |link: usize| run.rows[schema.edges[edges[link]].target];
    let links: Vec<usize> = (0..edges.len()).filter(|&link| count(link) < 512).collect();
    let link = random.any_of(&links)?;
    row.links[link] = target(count(link));
    Some(())
}

/// Makes some value one that its kind has not, on any of these sides.
fn put_off_scale(
    random: &mut Random,
    schema: &Schema,
    table: usize,
    row: &mut Row,
    sides: &[OffScale],
) -> Option<()> {
    let mut choices = Vec::new();
    for (place, column) in schema.attributes_at(table).into_iter().enumerate() {
        let range = &RANGES[schema.attributes[column].kind];
        choices.extend(sides.iter().filter_map(|side| side(range)).map(|value| (place, value)));
    }
    let (place, value) = random.any_of(&choices)?;
    row.values[place] = value;
    Some(())
}

/// Makes the two sides of an equation lead to different rows, by another link.
fn bend(
    random: &mut Random,
    schema: &Schema,
    run: &Instance,
    table: usize,
    row: &mut Row,
) -> Option<()> {
    let edges = schema.edges_from(table);
    for _ in 0..20 {
        let mut bent = row.clone();
        let link = random.any_in(0..edges.len())?;
        bent.links[link] = random.below(run.rows[schema.edges[edges[link]].target]);
        if !obeys(schema, run, table, &bent) {
            *row = bent;
            return Some(());
        }
    }
    None
}
