//! Matchings and their transposition: "each row of A has one row of B in the
//! same table, its partner; along each link the partner of a row's target is
//! the target of the row's partner; each attribute has the same value at a row
//! and its partner."

use crate::bits::{BitReader, BitWriter};
use crate::instance::Instance;
use crate::mapping::Mapping;
use crate::refusal::{demand, Judged, NO_MATCH};
use crate::schema::Schema;

/// A decoded matching sheet.
#[derive(Debug, Clone, PartialEq, Eq)]
pub struct Matching {
    /// For each table of A, each row's partner, a row of the same table of B.
    pub partners: Vec<Vec<usize>>,
}

impl Matching {
    /// Decodes and judges a matching sheet from `a` to `b`: 1, 2, 17.
    pub fn accept(schema: &Schema, a: &Instance, b: &Instance, sheet: &[u8]) -> Judged<Self> {
        let list = Self::read(a, sheet)?;
        demand(list.is_matching(schema, a, b), NO_MATCH)?;
        Ok(list)
    }

    /// "Matching from A to B: for each row of A, tables in order, the row of B
    /// 9."
    fn read(a: &Instance, sheet: &[u8]) -> Judged<Self> {
        let mut reader = BitReader::new(sheet);
        let tables = a.rows.iter().map(|&count| reader.numbers(count, 9));
        let partners = tables.collect::<Judged<_>>()?;
        reader.finish()?;
        Ok(Matching { partners })
    }

    /// Whether this list, one entry per row of `a`, is a matching from `a` to
    /// `b` over `schema`.
    pub fn is_matching(&self, schema: &Schema, a: &Instance, b: &Instance) -> bool {
        self.has_partners_in(b) && self.keeps_links(schema, a, b) && self.keeps_values(schema, a, b)
    }

    /// Each partner is a row of its table.
    fn has_partners_in(&self, b: &Instance) -> bool {
        let mut tables = self.partners.iter().zip(&b.rows);
        tables.all(|(partners, &count)| partners.iter().all(|&row| row < count))
    }

    /// "along each link the partner of a row's target is the target of the
    /// row's partner"
    fn keeps_links(&self, schema: &Schema, a: &Instance, b: &Instance) -> bool {
        schema.edges.iter().enumerate().all(|(number, edge)| {
            (0..a.rows[edge.source]).all(|row| {
                let target_partner = self.partners[edge.target][a.links[number][row]];
                let partner_target = b.links[number][self.partners[edge.source][row]];
                target_partner == partner_target
            })
        })
    }

    /// "each attribute has the same value at a row and its partner"
    fn keeps_values(&self, schema: &Schema, a: &Instance, b: &Instance) -> bool {
        schema.attributes.iter().enumerate().all(|(number, attribute)| {
            (0..a.rows[attribute.node]).all(|row| {
                let partner = self.partners[attribute.node][row];
                a.values[number][row] == b.values[number][partner]
            })
        })
    }

    /// "Transposition turns Sigma's (c, row) into raw row and back, keeping the
    /// book row": the pushed list becomes the raw list.  Sigma's table at F(c)
    /// is the joined list over the fibre, so each raw table takes its stretch
    /// of it.
    pub fn to_raw(&self, f: &Mapping, run: &Instance) -> Matching {
        let mut taken = vec![0; self.partners.len()];
        let mut partners = Vec::new();
        for (c, &d) in f.nodes.iter().enumerate() {
            let end = taken[d] + run.rows[c];
            partners.push(self.partners[d][taken[d]..end].to_vec());
            taken[d] = end;
        }
        Matching { partners }
    }

    /// The raw list becomes the pushed list over T: the lists of each fibre are
    /// joined.
    pub fn to_pushed(&self, t: &Schema, f: &Mapping) -> Matching {
        let joined = |d: usize| f.fibre(d).iter().flat_map(|&c| self.partners[c].clone()).collect();
        Matching { partners: (0..t.nodes).map(joined).collect() }
    }

    /// The matching sheet.  A number too large for its field is written by its
    /// low bits.
    pub fn to_sheet(&self) -> Vec<u8> {
        let mut writer = BitWriter::new();
        for &row in self.partners.iter().flatten() {
            writer.number(9, row);
        }
        writer.finish()
    }
}
