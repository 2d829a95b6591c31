//! Damage done to one sheet of a call whose sheets are accepted, and the number
//! that document 01 gives for it.

mod instance;
mod list;
mod mapping;
mod path;
mod row;
mod schema;

use crate::call::{Call, Kind};
use crate::random::Random;
use crate::world::Sheet;
use reference::plain::{Instance, Mapping, Matching, Schema};

/// A way to damage a sheet.
#[derive(Debug, Clone, Copy, PartialEq, Eq, PartialOrd, Ord)]
pub enum Damage {
    /// No byte at all.
    Empty,
    /// The last byte is missing.
    LastByteMissing,
    /// Some of the first bytes alone.
    Cut,
    /// A filling bit is 1.
    FillingBit,
    /// A byte 0 follows.
    ZeroFollows,
    /// Random bytes follow.
    BytesFollow,
    /// Damage to a schema sheet.
    Schema(schema::SchemaDamage),
    /// Damage to a mapping sheet.
    Mapping(mapping::MappingDamage),
    /// Damage to an instance sheet.
    Instance(instance::InstanceDamage),
    /// Damage to a path sheet.
    Path(path::PathDamage),
    /// Damage to a list.
    List(list::ListDamage),
    /// Damage to a row that is added.
    Row(row::RowDamage),
}

pub use instance::InstanceDamage;
pub use list::ListDamage;
pub use mapping::MappingDamage;
pub use path::PathDamage;
pub use row::RowDamage;
pub use schema::SchemaDamage;

/// The damage that every sheet can suffer.
const OF_ANY_SHEET: [Damage; 6] = [
    Damage::Empty,
    Damage::LastByteMissing,
    Damage::Cut,
    Damage::FillingBit,
    Damage::ZeroFollows,
    Damage::BytesFollow,
];

impl Damage {
    /// All damage that a sheet of a kind can suffer.
    pub fn of(kind: Kind) -> Vec<Damage> {
        let own: Vec<Damage> = match kind {
            Kind::Schema => SchemaDamage::ALL.map(Damage::Schema).to_vec(),
            Kind::Mapping { .. } => MappingDamage::ALL.map(Damage::Mapping).to_vec(),
            Kind::Instance { .. } => InstanceDamage::ALL.map(Damage::Instance).to_vec(),
            Kind::Path => PathDamage::ALL.map(Damage::Path).to_vec(),
            Kind::List => ListDamage::ALL.map(Damage::List).to_vec(),
            Kind::Row => RowDamage::ALL.map(Damage::Row).to_vec(),
        };
        OF_ANY_SHEET.into_iter().chain(own).collect()
    }

    /// The number that the damaged sheet is sent back with.
    pub fn number(self) -> u8 {
        match self {
            Damage::Empty | Damage::LastByteMissing | Damage::Cut => 1,
            Damage::FillingBit | Damage::ZeroFollows | Damage::BytesFollow => 2,
            Damage::Schema(damage) => damage.number(),
            Damage::Mapping(damage) => damage.number(),
            Damage::Instance(damage) => damage.number(),
            Damage::Path(_) => 4,
            Damage::List(_) => 17,
            Damage::Row(damage) => damage.number(),
        }
    }

    /// The sheets with the one at `place` (from 0) damaged; nothing where that
    /// cannot be done to this sheet.
    pub fn done_to(
        self,
        random: &mut Random,
        call: Call,
        lent: &[Sheet],
        place: usize,
    ) -> Option<Vec<Vec<u8>>> {
        let mut sheets: Vec<Vec<u8>> = lent.iter().map(Sheet::bytes).collect();
        let schema = |place: usize| schema_at(lent, place);
        let kinds = call.sheets();
        let damaged = match (self, &lent[place], kinds[place]) {
            (Damage::Schema(damage), Sheet::Schema(schema), _) => damage.done_to(random, schema)?,
            (Damage::Mapping(damage), Sheet::Mapping(f), Kind::Mapping { from, to }) => {
                let done = damage.done_to(random, schema(from), schema(to), f)?;
                sheets[from - 1] = done.s.to_sheet();
                sheets[to - 1] = done.t.to_sheet();
                if !mappings_are_accepted(&kinds[..place], &sheets) {
                    return None;
                }
                done.f.to_sheet()
            }
            (Damage::Instance(damage), Sheet::Instance(instance), Kind::Instance { of }) => {
                damage.done_to(random, schema(of), instance)?
            }
            (Damage::Path(damage), Sheet::Path(path), _) => {
                damage.done_to(random, schema(1), path)?
            }
            (Damage::List(damage), Sheet::List(list), _) => {
                damage.done_to(random, &list::Sides::of(call, lent)?, list)?
            }
            (Damage::Row(damage), Sheet::Row { table, row }, _) => {
                damage.done_to(random, schema(1), run_of(lent), *table, row)?
            }
            (damage, sheet, _) => {
                damage.done_to_any(random, sheet.bytes(), filling_bits(lent, place))?
            }
        };
        sheets[place] = damaged;
        Some(sheets)
    }

    /// A damaged sheet of any kind.
    fn done_to_any(
        self,
        random: &mut Random,
        mut sheet: Vec<u8>,
        filling: usize,
    ) -> Option<Vec<u8>> {
        match self {
            Damage::Empty => (!sheet.is_empty()).then(Vec::new),
            Damage::LastByteMissing => sheet.pop().map(|_| sheet),
            Damage::Cut => {
                let length = random.any_in(1..sheet.len())?;
                Some(sheet[..length].to_vec())
            }
            Damage::FillingBit => {
                let bit = random.any_in(0..filling)?;
                *sheet.last_mut()? |= 1 << bit;
                Some(sheet)
            }
            Damage::ZeroFollows => Some([sheet, vec![0]].concat()),
            Damage::BytesFollow => {
                sheet.extend(random.bytes(4));
                sheet.push(random.bits() as u8);
                Some(sheet)
            }
            _ => unreachable!("damage to sheets of another kind"),
        }
    }
}

/// The schema at a place, from 1.
fn schema_at(lent: &[Sheet], place: usize) -> &Schema {
    match &lent[place - 1] {
        Sheet::Schema(schema) => schema,
        _ => unreachable!("a schema stands there"),
    }
}

/// The run that a change is lent.
fn run_of(lent: &[Sheet]) -> &Instance {
    match &lent[3] {
        Sheet::Instance(run) => run,
        _ => unreachable!("a run stands there"),
    }
}

/// Whether the mappings among the first sheets, of these kinds, are accepted between
/// the schemas of all: another equation can break the rules of an earlier mapping.
fn mappings_are_accepted(kinds: &[Kind], sheets: &[Vec<u8>]) -> bool {
    kinds.iter().zip(sheets).all(|(kind, sheet)| {
        let Kind::Mapping { from, to } = *kind else { return true };
        let schema = |place: usize| Schema::accept(&sheets[place - 1]);
        let (Ok(s), Ok(t)) = (schema(from), schema(to)) else { return false };
        Mapping::accept(&s, &t, sheet).is_ok()
    })
}

/// The number of filling bits of an accepted sheet.
fn filling_bits(lent: &[Sheet], place: usize) -> usize {
    let bits: usize = match &lent[place] {
        Sheet::Schema(schema) => schema_bits(schema),
        Sheet::Mapping(f) => {
            let edges: usize = f.edges.iter().map(|image| 4 + 5 * image.len()).sum();
            4 * f.nodes.len() + edges + 4 * f.attributes.len()
        }
        Sheet::Instance(instance) => {
            let links: usize = instance.links.iter().map(Vec::len).sum();
            let values: usize = instance.values.iter().map(Vec::len).sum();
            10 * instance.rows.len() + 9 * links + 32 * values
        }
        Sheet::Path(path) => 8 + 5 * path.edges.len(),
        Sheet::List(Matching { partners }) => 9 * partners.iter().map(Vec::len).sum::<usize>(),
        Sheet::Row { row, .. } => 9 * row.links.len() + 32 * row.values.len(),
    };
    bits.next_multiple_of(8) - bits
}

fn schema_bits(schema: &Schema) -> usize {
    let sides = schema.equations.iter().flat_map(|equation| [&equation.left, &equation.right]);
    let equations: usize = sides.map(|side| 8 + 5 * side.edges.len()).sum();
    22 + 8 * (schema.edges.len() + schema.attributes.len()) + equations
}
