//! The composing call on five sheets, and mappings one behind the other, by chance.

use reference::plain::*;
use reference::{compose, Refusal};
use vectors::composable::Composable;
use vectors::mappings::Mapped;
use vectors::random::Random;

/// S, T, U, F and G, in the order of their places.
pub type ComposeSheets = [Vec<u8>; 5];

/// The sheets of decoded schemas and mappings.
pub fn sheets_of(schemas: [&Schema; 3], mappings: [&Mapping; 2]) -> ComposeSheets {
    let [s, t, u] = schemas.map(Schema::to_sheet);
    let [f, g] = mappings.map(Mapping::to_sheet);
    [s, t, u, f, g]
}

/// The call on five sheets.
pub fn composed(sheets: &ComposeSheets) -> Result<Vec<u8>, Refusal> {
    let [s, t, u, f, g] = sheets;
    compose(s, t, u, f, g)
}

/// So many mappings, each to the schema that the next one is of.
pub fn any_composable<const COUNT: usize>(random: &mut Random) -> [Mapped; COUNT] {
    Composable::any(random, COUNT).mapped().try_into().expect("so many mappings")
}
