//! The order in which cases are tried: the fixed ones, those that are made for
//! one refusal each, then as many by chance as are wanted; and in the same order, apart
//! from the others, the changes of runs.

use crate::answer::result_length;
use crate::call::{Call, Case};
use crate::change_limits::{change_limits, longest_changes};
use crate::change_refusals;
use crate::composable::Composable;
use crate::composition_refusals;
use crate::compositions::compositions;
use crate::damage::Damage;
use crate::digs::any_lent_dig;
use crate::even::{even_mapping, uneven_mapping, Unevenness};
use crate::instances::instance;
use crate::limits::{limits, longest};
use crate::mappings::mapping;
use crate::papers::papers;
use crate::puzzles::any_colourings;
use crate::query_refusals;
use crate::random::Random;
use crate::world::{Sheet, World};
use reference::{migrate, refusal, Refusal};

/// A case, and the refusal that it is made for.
pub struct Expected {
    /// The case.
    pub case: Case,
    /// What it is sent back with.
    pub refusal: Refusal,
}

/// The calls with a list.
const WITH_LIST: [Call; 4] =
    [Call::CheckPushed, Call::CheckRaw, Call::PushedToRaw, Call::RawToPushed];

/// For each call, place and damage a case with that damage; then those for the numbers of
/// no single sheet.  The query has random numbers of its own, so that the others' cases do
/// not depend on it; the changes of a run and the composing call have cases of their own.
pub fn for_each_refusal(random: &mut Random) -> Vec<Expected> {
    let mut of_query = random.clone();
    let mut cases = Vec::new();
    for call in others() {
        let random = if call == Call::Query { &mut of_query } else { &mut *random };
        for (place, &kind) in call.sheets().iter().enumerate() {
            for damage in Damage::of(kind) {
                let case = damaged(random, call, place, damage);
                let refusal = Refusal { number: damage.number(), place: place as u8 + 1 };
                cases.push(Expected { case, refusal });
            }
        }
    }
    cases.extend(for_no_single_sheet(random));
    let of_query = query_refusals::for_no_single_sheet(&mut of_query).into_iter();
    let expected = |(number, case)| Expected { case, refusal: Refusal { number, place: 0 } };
    cases.extend(of_query.map(expected));
    cases
}

/// The calls but the changes of a run and the composing call.
fn others() -> impl Iterator<Item = Call> {
    Call::ALL.into_iter().filter(|call| !call.is_change() && *call != Call::Compose)
}

/// The fixed cases of the calls that change no run, the longest too, and one for each
/// refusal.
pub fn fixed_and_refused(random: &mut Random) -> Vec<Case> {
    let refused = for_each_refusal(random).into_iter();
    let refused = refused.chain(composition_refusals::for_each_refusal(random));
    let refused = refused.map(|expected| expected.case);
    let fixed = papers().into_iter().chain(limits()).chain(longest()).chain(compositions());
    fixed.chain(refused).collect()
}

/// The same of the changes of runs.
pub fn fixed_and_refused_changes(random: &mut Random) -> Vec<Case> {
    let refused = change_refusals::for_each_refusal(random).into_iter();
    let refused = refused.map(|expected| expected.case);
    change_limits().into_iter().chain(longest_changes()).chain(refused).collect()
}

/// A case of a call with a damaged sheet, from the first world that allows it.
fn damaged(random: &mut Random, call: Call, place: usize, damage: Damage) -> Case {
    let name = format!("place {}, {damage:?}", place + 1);
    for _ in 0..10_000 {
        let world = World::matched(random, 3);
        let lent = world.lent(random, call);
        if let Some(sheets) = damage.done_to(random, call, &lent, place) {
            return Case::new(name, call, sheets).with_tray(random.below(64));
        }
    }
    panic!("{} {name}: no world allows it", call.name());
}

/// Cases for 12, 13, 15 and 16 of each of these calls but the query; those for 14 are among
/// the limits.
fn for_no_single_sheet(random: &mut Random) -> Vec<Expected> {
    let mut cases = Vec::new();
    let mut add = |number: u8, case: Case| {
        cases.push(Expected { case, refusal: Refusal { number, place: 0 } });
    };
    for call in [[Call::Sigma].as_slice(), &WITH_LIST].concat() {
        for reason in Unevenness::ALL {
            let mapped = uneven_mapping(random, reason);
            let world = World::unrelated(random, mapped, 3);
            let sheets = sheets(&world.lent(random, call));
            add(12, Case::new(format!("{reason:?}"), call, sheets).with_tray(random.below(64)));
        }
    }
    for (column, name) in [(true, "a column more in T"), (false, "two columns over one")] {
        add(13, Case::new(name, Call::Pi, unpaired(random, column)).with_tray(99));
    }
    for call in [[Call::Delta].as_slice(), &WITH_LIST].concat() {
        let world = overfull(random);
        let sheets = sheets(&world.lent(random, call));
        add(15, Case::new("too many rows pulled back", call, sheets).with_tray(600));
    }
    add(15, too_many_families(random));
    for call in others().filter(|call| call.has_tray() && *call != Call::Query) {
        for _ in 0..3 {
            let (case, needed) = accepted(random, call);
            add(16, case.clone().with_tray(needed - 1));
            add(16, case.with_tray(0));
        }
    }
    cases
}

/// The bytes of sheets.
fn sheets(lent: &[Sheet]) -> Vec<Vec<u8>> {
    lent.iter().map(Sheet::bytes).collect()
}

/// Sheets for Pi whose attribute mapping is no bijection: T has a column more,
/// or two of S lie over one.
fn unpaired(random: &mut Random, column: bool) -> Vec<Vec<u8>> {
    loop {
        let mut mapped = mapping(random, false);
        let Some(&last) = mapped.s.attributes.last() else { continue };
        if column {
            let node = random.below(mapped.t.nodes);
            mapped.t.attributes.push(reference::plain::Attribute { node, kind: last.kind });
        } else {
            mapped.s.attributes.push(last);
            mapped.f.attributes.push(*mapped.f.attributes.last().expect("an image for each"));
        }
        return sheets(&World::unrelated(random, mapped, 3).lent(random, Call::Pi));
    }
}

/// A world whose book has more than 512 rows when it is pulled back.
fn overfull(random: &mut Random) -> World {
    loop {
        let mapped = even_mapping(random);
        let book = instance(random, &mapped.t, 400);
        if migrate::delta(&mapped.s, &mapped.f, &book) == Err(refusal::OVERFULL) {
            return World { book, ..World::unrelated(random, mapped, 3) };
        }
    }
}

/// A case in which Pi has more than 512 families.
fn too_many_families(random: &mut Random) -> Case {
    loop {
        let mapped = mapping(random, false);
        let world = World::unrelated(random, mapped, 30);
        let case = Case::new("too many families", Call::Pi, sheets(&world.lent(random, Call::Pi)));
        let [s, t, f, i] = case.sheets.as_slice() else { unreachable!("Pi's sheets") };
        if reference::pi(s, t, f, i) == Err(Refusal { number: refusal::OVERFULL, place: 0 }) {
            return case.with_tray(600);
        }
    }
}

/// An accepted case of a call with a tray, and the bytes that it needs, at least
/// one.
fn accepted(random: &mut Random, call: Call) -> (Case, usize) {
    loop {
        let world = if call == Call::Pi {
            let mapped = mapping(random, false);
            World::unrelated(random, mapped, 3)
        } else {
            World::matched(random, 3)
        };
        let case = Case::new("a small tray", call, sheets(&world.lent(random, call)));
        if let Some(needed @ 1..) = result_length(&case) {
            return (case, needed);
        }
    }
}

/// Cases by chance, without end: for each world every call that changes no run on its
/// sheets as they are and on damaged ones, for first paths on two, and for each tenth a
/// puzzle for Pi.  The query has sheets, and random numbers, of its own, and so has the
/// composing call.
pub struct Chance {
    random: Random,
    of_query: Random,
    of_compose: Random,
    worlds: u64,
    waiting: Vec<Case>,
}

impl Chance {
    /// The cases of a seed.
    pub fn seeded(seed: u64) -> Self {
        let seeds = [seed, !seed, seed.rotate_left(32)];
        let [random, of_query, of_compose] = seeds.map(Random::seeded);
        Chance { random, of_query, of_compose, worlds: 0, waiting: Vec::new() }
    }

    /// All cases of the next world.
    fn next_world(&mut self) -> Vec<Case> {
        self.worlds += 1;
        let random = &mut self.random;
        let generators = *random.one_of(&[1, 2, 2, 3, 3, 4, 4, 6, 12, 40]);
        let world = World::any(random, generators);
        let mut cases = Vec::new();
        if self.worlds.is_multiple_of(10) {
            let puzzle = any_colourings(random);
            let tray = some_tray(random, &puzzle);
            cases.push(puzzle.with_tray(tray));
        }
        for call in others().filter(|&call| call != Call::Query) {
            for lent in world.lent_each(random, call) {
                cases.extend(whole_and_damaged(random, self.worlds, call, &lent));
            }
        }
        let random = &mut self.of_query;
        let lent = any_lent_dig(random, generators).lent();
        cases.extend(whole_and_damaged(random, self.worlds, Call::Query, &lent));
        let random = &mut self.of_compose;
        let lent = Composable::any(random, 2).lent();
        cases.extend(whole_and_damaged(random, self.worlds, Call::Compose, &lent));
        cases
    }
}

/// A call on sheets of a world as they are, and on damaged ones.
fn whole_and_damaged(random: &mut Random, world: u64, call: Call, lent: &[Sheet]) -> [Case; 2] {
    let name = |what: &str| format!("world {world}, {what}");
    let whole = Case::new(name("as it is"), call, sheets(lent));
    let tray = some_tray(random, &whole);
    let (what, sheets) = by_chance(random, call, lent);
    let damaged = Case::new(name(&what), call, sheets);
    [whole, damaged].map(|case| case.with_tray(tray))
}

impl Iterator for Chance {
    type Item = Case;

    fn next(&mut self) -> Option<Case> {
        while self.waiting.is_empty() {
            self.waiting = self.next_world();
            self.waiting.reverse();
        }
        self.waiting.pop()
    }
}

/// A length for the tray: what is needed, a byte less, some more, any, or none.
fn some_tray(random: &mut Random, case: &Case) -> usize {
    let needed = if case.call.has_tray() { result_length(case) } else { None };
    match (needed, random.below(6)) {
        (Some(needed), 0) => needed.saturating_sub(1),
        (Some(needed), 1..=2) => needed,
        (Some(needed), 3..=4) => needed + 1 + random.below(20),
        (None, 0) => 0,
        _ => random.below(80),
    }
}

/// The sheets with one of them damaged, and what was done.
fn by_chance(random: &mut Random, call: Call, lent: &[Sheet]) -> (String, Vec<Vec<u8>>) {
    let place = random.below(lent.len());
    let damage = *random.one_of(&Damage::of(call.sheets()[place]));
    if random.once_in(3) {
        if let Some(sheets) = damage.done_to(random, call, lent, place) {
            return (format!("place {}, {damage:?}", place + 1), sheets);
        }
    }
    let mut sheets = sheets(lent);
    let what = match random.below(8) {
        0 => {
            sheets[place] = random.bytes(40);
            "random bytes"
        }
        1 => {
            let other = random.below(lent.len());
            sheets.swap(place, other);
            "two sheets exchanged"
        }
        2 => {
            let length = random.below(sheets[place].len() + 1);
            sheets[place].truncate(length);
            "cut"
        }
        3 => {
            let at = random.below(sheets[place].len() + 1);
            sheets[place].insert(at, random.bits() as u8);
            "a byte more"
        }
        _ => {
            for _ in 0..1 + random.below(2) {
                flip(random, &mut sheets[place]);
            }
            "bits flipped"
        }
    };
    (format!("place {}, {what}", place + 1), sheets)
}

/// Flips a bit, if there is one.
pub(crate) fn flip(random: &mut Random, sheet: &mut [u8]) {
    if !sheet.is_empty() {
        let bit = random.below(8 * sheet.len());
        sheet[bit / 8] ^= 0x80 >> (bit % 8);
    }
}
