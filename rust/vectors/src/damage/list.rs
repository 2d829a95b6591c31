//! Damage to lists: 17.

use crate::call::Call;
use crate::random::Random;
use crate::world::Sheet;
use reference::migrate;
use reference::plain::*;

/// A way to damage a list.
#[derive(Debug, Clone, Copy, PartialEq, Eq, PartialOrd, Ord)]
pub enum ListDamage {
    /// A partner after the last row of its table.
    PartnerBeyond,
    /// Partner 511.
    PartnerFar,
    /// Another row of the book that does not match.
    OtherPartner,
    /// Two partners exchanged, so that they no longer match.
    Exchanged,
}

use ListDamage::*;

impl ListDamage {
    /// All of them.
    pub const ALL: [ListDamage; 4] = [PartnerBeyond, PartnerFar, OtherPartner, Exchanged];

    /// The damaged sheet.
    pub fn done_to(self, random: &mut Random, sides: &Sides, old: &Matching) -> Option<Vec<u8>> {
        let mut list = old.clone();
        let mut tables: Vec<usize> = (0..list.partners.len()).collect();
        tables.retain(|&table| !list.partners[table].is_empty());
        let table = random.any_of(&tables)?;
        let (rows, count) = (list.partners[table].len(), sides.b.rows[table]);
        let row = random.below(rows);
        match self {
            PartnerBeyond => list.partners[table][row] = count,
            PartnerFar => list.partners[table][row] = 511,
            OtherPartner => {
                list.partners[table][row] = random.any_in(0..count)?;
            }
            Exchanged => list.partners[table].swap(row, random.below(rows)),
        }
        let encodable = list.partners.iter().flatten().all(|&partner| partner < 512);
        let damaged = !list.is_matching(&sides.schema, &sides.a, &sides.b);
        (encodable && damaged).then(|| list.to_sheet())
    }
}

/// The two instances that a list is held against, and their schema.
pub struct Sides {
    schema: Schema,
    a: Instance,
    b: Instance,
}

impl Sides {
    /// "The pushed side goes from Sigma's result to the book, the raw side from
    /// the run to Delta's result."  Nothing where there is no such result.
    pub fn of(call: Call, lent: &[Sheet]) -> Option<Self> {
        let [Sheet::Schema(s), Sheet::Schema(t), Sheet::Mapping(f), Sheet::Instance(run), Sheet::Instance(book), ..] =
            lent
        else {
            unreachable!("a call with a list");
        };
        let a = migrate::sigma(s, t, f, run).ok()?;
        let b = migrate::delta(s, f, book).ok()?;
        Some(match call {
            Call::CheckPushed | Call::PushedToRaw => {
                Sides { schema: t.clone(), a, b: book.clone() }
            }
            _ => Sides { schema: s.clone(), a: run.clone(), b },
        })
    }
}
