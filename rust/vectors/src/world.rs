//! Everything that the calls are lent, fitting together: two schemas, a mapping,
//! a run, a book, and lists of both sides.

use crate::call::{Call, Kind};
use crate::composable::Composable;
use crate::digs::any_dig;
use crate::even::{copies, even_mapping};
use crate::instances::{beside, instance, no_rows, shuffled};
use crate::mappings::{mapping, Mapped};
use crate::questions::{any_question, Question};
use crate::random::Random;
use reference::classes::Classes;
use reference::migrate;
use reference::paths::all_paths;
use reference::plain::*;

/// A sheet before it is written down.
#[derive(Debug, Clone)]
pub enum Sheet {
    /// A schema.
    Schema(Schema),
    /// A mapping.
    Mapping(Mapping),
    /// An instance.
    Instance(Instance),
    /// A path.
    Path(Path),
    /// A list of partners.
    List(Matching),
    /// A row for a table.
    Row {
        /// The table.
        table: usize,
        /// The row.
        row: Row,
    },
}

impl Sheet {
    /// The sheet's bytes.
    pub fn bytes(&self) -> Vec<u8> {
        match self {
            Sheet::Schema(schema) => schema.to_sheet(),
            Sheet::Mapping(mapping) => mapping.to_sheet(),
            Sheet::Instance(instance) => instance.to_sheet(),
            Sheet::Path(path) => path.to_sheet(),
            Sheet::List(list) => list.to_sheet(),
            Sheet::Row { row, .. } => row.to_sheet(),
        }
    }
}

/// Accepted schemas, mapping, run and book, and a list for each side.
#[derive(Debug, Clone)]
pub struct World {
    /// The schemas and the mapping.
    pub mapped: Mapped,
    /// An instance of S.
    pub run: Instance,
    /// An instance of T.
    pub book: Instance,
    /// A list for the rows of Sigma's result.
    pub pushed: Matching,
    /// A list for the rows of the run.
    pub raw: Matching,
}

impl World {
    /// Any world: most have an even mapping, and most of these have matchings;
    /// one in 20 is large.
    pub fn any(random: &mut Random, generators: usize) -> Self {
        let (kind, large) = (random.below(6), random.once_in(20));
        let mapped = match kind {
            _ if large => copies(random),
            0 | 1 => mapping(random, kind == 0),
            _ => even_mapping(random),
        };
        match kind {
            0..=2 => Self::unrelated(random, mapped, generators),
            3 => Self::from_book(random, mapped, generators),
            _ => Self::from_run(random, mapped, generators),
        }
    }

    /// A world with an even mapping and a matching on each side.
    pub fn matched(random: &mut Random, generators: usize) -> Self {
        let mapped = even_mapping(random);
        if random.once_in(2) {
            Self::from_book(random, mapped, generators)
        } else {
            Self::from_run(random, mapped, generators)
        }
    }

    /// Run and book by chance, and lists by chance.
    pub fn unrelated(random: &mut Random, mapped: Mapped, generators: usize) -> Self {
        let run = instance(random, &mapped.s, generators);
        let book = instance(random, &mapped.t, generators);
        let partner = |random: &mut Random, d: usize| random.below(book.rows[d].max(1));
        let images = &mapped.f.nodes;
        let table = |(&rows, &d): (&usize, &usize)| (0..rows).map(|_| partner(random, d)).collect();
        let raw = Matching { partners: run.rows.iter().zip(images).map(table).collect() };
        let pushed = raw.to_pushed(&mapped.t, &mapped.f);
        World { mapped, run, book, pushed, raw }
    }

    /// A book by chance, and its rows pulled back as the run: each row's partner
    /// is the row that it was.  The mapping is even.
    pub fn from_book(random: &mut Random, mapped: Mapped, generators: usize) -> Self {
        let book = instance(random, &mapped.t, generators);
        let Ok(pulled) = migrate::delta(&mapped.s, &mapped.f, &book) else {
            return Self::from_run(random, mapped, generators);
        };
        let (run, new_row) = shuffled(random, &mapped.s, &pulled);
        let inverse = |rows: &Vec<usize>| {
            let mut old = vec![0; rows.len()];
            rows.iter().enumerate().for_each(|(before, &now)| old[now] = before);
            old
        };
        let raw = Matching { partners: new_row.iter().map(inverse).collect() };
        let pushed = raw.to_pushed(&mapped.t, &mapped.f);
        World { mapped, run, book, pushed, raw }
    }

    /// A run by chance, and a book that has Sigma of it and more rows, in
    /// another order.  The mapping is even.
    pub fn from_run(random: &mut Random, mapped: Mapped, generators: usize) -> Self {
        let run = instance(random, &mapped.s, generators);
        let sigma = migrate::sigma(&mapped.s, &mapped.t, &mapped.f, &run).expect("an even mapping");
        let more = instance(random, &mapped.t, generators);
        let book = beside(&mapped.t, &sigma, &more).unwrap_or_else(|| sigma.clone());
        let (book, mut new_row) = shuffled(random, &mapped.t, &book);
        new_row.iter_mut().zip(&sigma.rows).for_each(|(rows, &count)| rows.truncate(count));
        let pushed = Matching { partners: new_row };
        let raw = pushed.to_raw(&mapped.f, &run);
        World { mapped, run, book, pushed, raw }
    }

    /// A world without rows.
    pub fn empty(mapped: Mapped) -> Self {
        let (run, book) = (no_rows(&mapped.s), no_rows(&mapped.t));
        let pushed = Matching { partners: vec![vec![]; mapped.t.nodes] };
        let raw = Matching { partners: vec![vec![]; mapped.s.nodes] };
        World { mapped, run, book, pushed, raw }
    }

    /// Two paths of one schema: mostly of one in which many are equal, else of S or T.
    fn question(&self, random: &mut Random) -> Question {
        if !random.once_in(3) {
            return any_question(random);
        }
        let schema = if random.once_in(2) { &self.mapped.s } else { &self.mapped.t };
        let [from, to] = two_paths(random, schema);
        Question::new(schema, from, to)
    }

    /// What a call is lent; for first paths two such, with two paths of one schema.
    pub fn lent_each(&self, random: &mut Random, call: Call) -> Vec<Vec<Sheet>> {
        match call {
            Call::FirstPath => self.question(random).lent_in_turn().to_vec(),
            _ => vec![self.lent(random, call)],
        }
    }

    /// What a call is lent.  The calls with one schema are lent S or T, those with
    /// paths mostly another; the query and the composing call are lent sheets of their own.
    pub fn lent(&self, random: &mut Random, call: Call) -> Vec<Sheet> {
        let World { mapped: Mapped { s, t, f }, run, book, pushed, raw } = self;
        let list = match call {
            Call::CheckPushed | Call::PushedToRaw => pushed,
            _ => raw,
        };
        let of_s = random.once_in(2);
        let (schema, rows) = if of_s { (s, run) } else { (t, book) };
        match call {
            Call::CheckSchema => vec![Sheet::Schema(schema.clone())],
            Call::CheckInstance => {
                vec![Sheet::Schema(schema.clone()), Sheet::Instance(rows.clone())]
            }
            Call::FirstPath => self.question(random).lent_in_turn()[0].clone(),
            Call::PathChain => self.question(random).lent(),
            Call::Query => any_dig(random, 3).lent(),
            Call::Compose => Composable::any(random, 2).lent(),
            _ => {
                let of_kind = |place: usize| match (place, call.sheets()[place]) {
                    (0, _) => Sheet::Schema(s.clone()),
                    (_, Kind::Schema) => Sheet::Schema(t.clone()),
                    (_, Kind::Mapping { .. }) => Sheet::Mapping(f.clone()),
                    (_, Kind::Instance { of: 1 }) => Sheet::Instance(run.clone()),
                    (_, Kind::Instance { .. }) => Sheet::Instance(book.clone()),
                    (_, Kind::List) => Sheet::List(list.clone()),
                    (_, Kind::Path) => unreachable!("paths are lent to the calls with one schema"),
                    (_, Kind::Row) => unreachable!("changes are lent sheets of their own"),
                };
                (0..call.sheets().len()).map(of_kind).collect()
            }
        }
    }
}

/// Two paths of a schema: often equal ones that differ as lists, if there are
/// such; else paths with one start and one end, or any.
fn two_paths(random: &mut Random, schema: &Schema) -> [Path; 2] {
    let paths = all_paths(schema);
    if random.once_in(2) {
        let classes = Classes::of(schema);
        let mut later: Vec<&Path> = paths.iter().collect();
        later.retain(|p| classes.first(p) != *p);
        if let Some(p) = random.any_of(&later) {
            let mut others = paths.clone();
            others.retain(|q| classes.first(q) == classes.first(p) && q != p);
            return [p.clone(), random.one_of(&others).clone()];
        }
    }
    let p = random.one_of(&paths).clone();
    let mut others = paths;
    if random.once_in(2) {
        others.retain(|q| q.start == p.start && q.end(schema) == p.end(schema));
    }
    [p, random.one_of(&others).clone()]
}
