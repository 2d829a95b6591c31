//! Mappings one behind the other, by chance: the last schema is made first, and then, from
//! mapping to mapping, a schema that is mapped to the one made before.

use crate::build::identity;
use crate::call::{Call, Case};
use crate::even::even_mapping_to;
use crate::mappings::{mapping_to, Mapped};
use crate::random::Random;
use crate::schemas::{add_attributes, add_equations, graph, is_accepted, woven};
use crate::world::Sheet;
use reference::plain::*;

/// Schemas, and a mapping from each to the next.
#[derive(Debug, Clone)]
pub struct Composable {
    /// The schemas, one more than there are mappings.
    pub schemas: Vec<Schema>,
    /// The mappings.
    pub mappings: Vec<Mapping>,
}

impl Composable {
    /// So many mappings by chance.  One mapping in three is even, and one in twelve an identity.
    pub fn any(random: &mut Random, count: usize) -> Self {
        let mut all = Composable { schemas: vec![last(random)], mappings: vec![] };
        for _ in 0..count {
            let to = all.schemas[0].clone();
            let even = match random.below(12) {
                0 => Some(Mapped { f: identity(&to), s: to.clone(), t: to.clone() }),
                1..=4 => even_mapping_to(random, &to),
                _ => None,
            };
            let Mapped { s, f, .. } = even.unwrap_or_else(|| mapping_to(random, &to));
            all.schemas.insert(0, s);
            all.mappings.insert(0, f);
        }
        all
    }

    /// The sheets: the schemas, then the mappings.
    pub fn lent(&self) -> Vec<Sheet> {
        let schemas = self.schemas.iter().cloned().map(Sheet::Schema);
        schemas.chain(self.mappings.iter().cloned().map(Sheet::Mapping)).collect()
    }

    /// The sheets' bytes.
    pub fn sheets(&self) -> Vec<Vec<u8>> {
        self.lent().iter().map(Sheet::bytes).collect()
    }

    /// Of two mappings the composing call, with a tray that holds every result.
    pub fn case(&self, name: impl Into<String>) -> Case {
        Case::new(name, Call::Compose, self.sheets()).with_tray(Case::MOST_MAPPING)
    }

    /// Each mapping with its schemas.
    pub fn mapped(&self) -> Vec<Mapped> {
        let mapped = |(f, schemas): (&Mapping, &[Schema])| {
            let [s, t] = schemas else { unreachable!("two schemas") };
            Mapped { s: s.clone(), t: t.clone(), f: f.clone() }
        };
        self.mappings.iter().zip(self.schemas.windows(2)).map(mapped).collect()
    }
}

/// A schema by chance that others can be mapped to; one in ten has longer paths.
fn last(random: &mut Random) -> Schema {
    loop {
        let mut schema = match random.below(10) {
            0 => woven(random, 9, 5),
            1..=2 => graph(random, 4, 5),
            _ => woven(random, 6, 4),
        };
        add_attributes(random, &mut schema, 6);
        add_equations(random, &mut schema, 3, |_, _| true);
        if is_accepted(&schema) {
            return schema;
        }
    }
}
