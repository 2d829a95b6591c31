//! The laws of composed mappings, byte for byte, over the library's own calls: three
//! mappings composed either way, identities on either side, Delta along two mappings in turn
//! and along the composite, even mappings.  The compositions of neighbours, and Deltas, are
//! compared with the reference too.

use crate::hex;
use crate::limit::each_within;
use migration::{check_mapping, delta, sigma, Refusal};
use reference::plain::Instance;
use std::fmt;
use vectors::build::identity;
use vectors::composable::Composable;
use vectors::instances::{instance, no_rows};
use vectors::random::Random;

/// The result of a call that gives a sheet.
pub type Sheet = Result<Vec<u8>, Refusal>;

/// What composes the mappings F and G of `[S, T, U, F, G]`.
pub type Compose = fn([&[u8]; 5]) -> Sheet;

/// Three mappings by chance, from S by way of T and U to V, and a book over U.
#[derive(Debug, Clone)]
pub struct LawCase {
    /// The mappings, with their schemas.
    pub composable: Composable,
    /// The book.
    pub book: Instance,
}

impl LawCase {
    /// A case by chance.  Some books have more rows when they are pulled back than a sheet
    /// can have.
    pub fn any(random: &mut Random) -> Self {
        let composable = Composable::any(random, 3);
        let generators = *random.one_of(&[2, 4, 4, 8, 8, 20, 20, 400]);
        let book = instance(random, &composable.schemas[2], generators);
        LawCase { composable, book }
    }
}

/// The sheets, for a case that breaks a law.
impl fmt::Display for LawCase {
    fn fmt(&self, out: &mut fmt::Formatter<'_>) -> fmt::Result {
        let names = ["S", "T", "U", "V", "F", "G", "H"];
        for (name, sheet) in names.into_iter().zip(self.composable.sheets()) {
            writeln!(out, "{name}: {}", hex(&sheet))?;
        }
        writeln!(out, "book: {}", hex(&self.book.to_sheet()))
    }
}

/// How many cases met what.
#[derive(Debug, Clone, Copy, Default, PartialEq, Eq)]
pub struct Met {
    /// All of them: three mappings composed either way, and each with identities.
    pub tried: usize,
    /// Delta accepted along the composed mapping, along G, and along F of that.
    pub all_accepted: usize,
    /// Of these, such whose result has a link and a value.
    pub with_rows: usize,
    /// Delta accepted along the composed mapping, and overfull along G.
    pub composite_alone: usize,
    /// Delta overfull along the composed mapping.
    pub overfull: usize,
    /// F, G and the composed mapping even.
    pub even: usize,
}

impl Met {
    fn add(&mut self, other: Met) {
        let Met { tried, all_accepted, with_rows, composite_alone, overfull, even } = other;
        self.tried += tried;
        self.all_accepted += all_accepted;
        self.with_rows += with_rows;
        self.composite_alone += composite_alone;
        self.overfull += overfull;
        self.even += even;
    }
}

impl fmt::Display for Met {
    fn fmt(&self, out: &mut fmt::Formatter<'_>) -> fmt::Result {
        writeln!(out, "three mappings composed either way: {}", self.tried)?;
        let (all, rows) = (self.all_accepted, self.with_rows);
        writeln!(out, "all three Deltas accepted: {all}, with links and values: {rows}")?;
        writeln!(out, "Delta along G overfull, along the composite not: {}", self.composite_alone)?;
        writeln!(out, "Delta along the composite overfull: {}", self.overfull)?;
        writeln!(out, "F and G even: {}", self.even)
    }
}

/// Whether two results are the same; else what was compared.
fn same(law: &str, one: &Sheet, other: &Sheet) -> Result<(), String> {
    if one == other {
        return Ok(());
    }
    let told = |sheet: &Sheet| sheet.as_ref().map_or_else(Refusal::to_string, |bytes| hex(bytes));
    Err(format!("{law}: {}; {}", told(one), told(other)))
}

/// The reference's result as the wrapper would give it.
fn referred(sheet: Result<Vec<u8>, reference::Refusal>) -> Sheet {
    sheet.map_err(|reference::Refusal { number, place }| Refusal { number, place })
}

/// The sheets of a case, and what composes.
struct Tried<'a> {
    case: &'a LawCase,
    schemas: Vec<Vec<u8>>,
    mappings: Vec<Vec<u8>>,
    compose: Compose,
}

impl Tried<'_> {
    /// A composed mapping, which is accepted: the places of its three schemas, from 0, and
    /// the mappings.
    fn composed(&self, places: [usize; 3], f: &[u8], g: &[u8]) -> Result<Vec<u8>, String> {
        let [s, t, u] = places.map(|place| self.schemas[place].as_slice());
        let composed = (self.compose)([s, t, u, f, g]);
        let sheet = composed.map_err(|refusal| format!("compose: {refusal}"))?;
        check_mapping(s, u, &sheet)
            .map_err(|refusal| format!("the composed mapping: {refusal}"))?;
        Ok(sheet)
    }

    /// The reference composes each two mappings that follow each other alike.
    fn as_the_reference(&self) -> Result<(), String> {
        for (schemas, mappings) in self.schemas.windows(3).zip(self.mappings.windows(2)) {
            let ([s, t, u], [f, g]) = (schemas, mappings) else { unreachable!("two mappings") };
            let expected = referred(reference::compose(s, t, u, f, g));
            same("compose, and the reference", &(self.compose)([s, t, u, f, g]), &expected)?;
        }
        Ok(())
    }

    /// Three mappings have one composition, whichever two are composed first: the composed
    /// mapping of the first two.
    fn associate(&self) -> Result<Vec<u8>, String> {
        let [f, g, h] = &self.mappings[..] else { unreachable!("three mappings") };
        let first = self.composed([0, 1, 2], f, g)?;
        let last = self.composed([1, 2, 3], g, h)?;
        let from_left = self.composed([0, 2, 3], &first, h)?;
        let from_right = self.composed([0, 1, 3], f, &last)?;
        same("composed either way", &Ok(from_left), &Ok(from_right))?;
        Ok(first)
    }

    /// Each mapping composed with an identity is itself.
    fn units(&self) -> Result<(), String> {
        let same_of = |place: usize| identity(&self.case.composable.schemas[place]).to_sheet();
        for (place, f) in self.mappings.iter().enumerate() {
            let next = place + 1;
            let after = self.composed([place, place, next], &same_of(place), f)?;
            same("after an identity", &Ok(after), &Ok(f.clone()))?;
            let before = self.composed([place, next, next], f, &same_of(next))?;
            same("before an identity", &Ok(before), &Ok(f.clone()))?;
        }
        Ok(())
    }

    /// Delta by the library, as the reference has it; it may be overfull.
    fn delta(&self, [s, t]: [usize; 2], f: &[u8], book: &[u8]) -> Result<Sheet, String> {
        let [s, t] = [s, t].map(|place| self.schemas[place].as_slice());
        let pulled = delta(s, t, f, book);
        same("delta, and the reference", &pulled, &referred(reference::delta(s, t, f, book)))?;
        if pulled.is_err() {
            same("no more than overfull", &pulled, &Err(Refusal { number: 15, place: 0 }))?;
        }
        Ok(pulled)
    }

    /// Delta along the composite is Delta along G and then F.  Where Delta along G has a
    /// result, both are the same, a refusal too; where it is overfull, Delta along the
    /// composite may be accepted.
    fn delta_of_composite(&self, composite: &[u8]) -> Result<Met, String> {
        let mut met = Met::default();
        let book = self.case.book.to_sheet();
        let along_composite = self.delta([0, 2], composite, &book)?;
        met.overfull = usize::from(along_composite.is_err());
        let Ok(between) = self.delta([1, 2], &self.mappings[1], &book)? else {
            met.composite_alone = usize::from(along_composite.is_ok());
            return Ok(met);
        };
        let in_turn = self.delta([0, 1], &self.mappings[0], &between)?;
        same("Delta along the composite, and in turn", &along_composite, &in_turn)?;
        met.all_accepted = usize::from(in_turn.is_ok());
        met.with_rows = usize::from(in_turn.is_ok_and(|sheet| self.has_rows(&sheet)));
        Ok(met)
    }

    /// Whether a sheet over S has a link and a value.
    fn has_rows(&self, sheet: &[u8]) -> bool {
        let rows = Instance::accept(&self.case.composable.schemas[0], sheet).expect("an instance");
        rows.links.iter().any(|l| !l.is_empty()) && rows.values.iter().any(|v| !v.is_empty())
    }

    /// Of even mappings the composite is even: whether they are.
    fn evenness(&self, composite: &[u8]) -> Result<bool, String> {
        let even = |s: usize, t: usize, f: &[u8]| {
            let none = no_rows(&self.case.composable.schemas[s]).to_sheet();
            sigma(&self.schemas[s], &self.schemas[t], f, &none).is_ok()
        };
        let both = even(0, 1, &self.mappings[0]) && even(1, 2, &self.mappings[1]);
        if both && !even(0, 2, composite) {
            return Err("an uneven composition of even mappings".into());
        }
        Ok(both)
    }
}

/// What a case met, or the law that it breaks.
pub fn try_laws(case: &LawCase, compose: Compose) -> Result<Met, String> {
    let schemas = case.composable.schemas.iter().map(|schema| schema.to_sheet()).collect();
    let mappings = case.composable.mappings.iter().map(|mapping| mapping.to_sheet()).collect();
    let tried = Tried { case, schemas, mappings, compose };
    let composite = tried.associate()?;
    tried.units()?;
    let met = tried.delta_of_composite(&composite)?;
    let even = usize::from(tried.evenness(&composite)?);
    tried.as_the_reference()?;
    Ok(Met { tried: 1, even, ..met })
}

/// So many cases by chance, each within [`LIMIT`](crate::LIMIT): what they met, or the first
/// that breaks a law.
pub fn try_all_laws(seed: u64, count: usize, compose: Compose) -> Result<Met, String> {
    let tried = each_within(crate::LIMIT, move |begin: &dyn Fn(LawCase)| {
        let (mut random, mut met) = (Random::seeded(seed), Met::default());
        for _ in 0..count {
            let case = LawCase::any(&mut random);
            begin(case.clone());
            met.add(try_laws(&case, compose).map_err(|law| format!("{case}{law}"))?);
        }
        Ok(met)
    });
    tried.unwrap_or_else(|late| match &late.step {
        Some(case) => Err(format!("{case}{late}")),
        None => Err(late.to_string()),
    })
}

/// The library's composing call.
pub fn by_the_library([s, t, u, f, g]: [&[u8]; 5]) -> Sheet {
    migration::compose(s, t, u, f, g)
}
