//! The calls that are made, and what the reference answers to them.

use crate::arguments::TRAY;
use crate::sizes::longest;
use std::collections::BTreeSet;
use std::sync::OnceLock;
use vectors::answer::{changed_lengths, reference_outcome, result_length, Outcome};
use vectors::call::Case;
use vectors::change_limits::change_limits;
use vectors::change_refusals;
use vectors::composition_refusals;
use vectors::compositions::compositions;
use vectors::limits::limits;
use vectors::papers::papers;
use vectors::random::Random;
use vectors::record::record;
use vectors::report::End;
use vectors::stream::for_each_refusal;

/// A call that is made.
#[derive(Debug, Clone)]
pub struct Trial {
    /// The call, and what it is lent.
    pub case: Case,
    /// What the reference answers.
    pub outcome: Outcome,
    /// The lengths that the program takes from a constant of the header.
    sizes: Vec<(usize, Size)>,
}

/// A length that the program takes from a constant of the header.
#[derive(Debug, Clone, Copy)]
pub struct Size {
    /// The constant.
    pub constant: &'static str,
    /// The length less the constant.
    pub more: i64,
}

impl Trial {
    /// A case and the reference's answer.
    pub fn new(case: Case) -> Self {
        Trial { outcome: reference_outcome(&case), case, sizes: vec![] }
    }

    /// The trial with a length from a constant.
    pub fn sized(mut self, place: usize, constant: &'static str, more: i64) -> Self {
        self.sizes.push((place, Size { constant, more }));
        self
    }

    /// The bytes of the sheet at a place; none for the tray.
    pub fn sheet(&self, place: usize) -> &[u8] {
        place.checked_sub(1).map_or(&[], |sheet| &self.case.sheets[sheet])
    }

    /// The length of the sheet at a place, or of the tray.
    pub fn length(&self, place: usize) -> usize {
        if place == TRAY {
            self.case.tray
        } else {
            self.sheet(place).len()
        }
    }

    /// Where the program takes the length at a place from a constant, that
    /// constant.
    pub fn size(&self, place: usize) -> Option<Size> {
        self.sizes.iter().find(|(of, _)| *of == place).map(|&(_, size)| size)
    }

    /// The constants that the program takes lengths from.
    pub fn constants(&self) -> impl Iterator<Item = &'static str> + '_ {
        self.sizes.iter().map(|(_, size)| size.constant)
    }
}

/// All trials.
pub fn trials() -> &'static [Trial] {
    static TRIALS: OnceLock<Vec<Trial>> = OnceLock::new();
    TRIALS.get_or_init(|| [for_each_end(), longest(), far_numbers()].concat())
}

/// Changes with a number that is another when its upper 32 bits are cut off.
fn far_numbers() -> Vec<Trial> {
    let far = |case: &Case| case.numbers.iter().any(|number| (1 << 32..1 << 33).contains(number));
    change_limits().into_iter().filter(far).map(Trial::new).collect()
}

/// The most bytes of a record that is taken for an end.
const MOST_RECORD: usize = 1000;

/// For each call, each end that it can have and each way in which the trays'
/// lengths differ from the results', the first case of the crate `vectors`.
fn for_each_end() -> Vec<Trial> {
    let refused = for_each_refusal(&mut Random::seeded(1)).into_iter();
    let refused = refused.chain(change_refusals::for_each_refusal(&mut Random::seeded(1)));
    let refused = refused.chain(composition_refusals::for_each_refusal(&mut Random::seeded(1)));
    let refused = refused.map(|expected| expected.case);
    let fixed = papers().into_iter().chain(limits()).chain(change_limits()).chain(compositions());
    let cases = fixed.chain(refused);
    let short = cases.filter(|case| record(case).len() <= MOST_RECORD);
    let mut met = BTreeSet::new();
    let is_new = |trial: &Trial| {
        let Trial { case, outcome, .. } = trial;
        met.insert((case.call, End::of(case.call, outcome), spare(case)))
    };
    short.map(Trial::new).filter(is_new).collect()
}

/// How many bytes the tray has more than the result needs, and of a change the run's tray
/// too, two of them standing for any number.
fn spare(case: &Case) -> [Option<i64>; 2] {
    let more = |tray: usize, needed: usize| (tray as i64 - needed as i64).clamp(-2, 2);
    if case.call.is_change() {
        let Some((run, pushed)) = changed_lengths(case) else { return [None; 2] };
        return [Some(more(case.tray, pushed)), Some(more(case.sheets[3].len(), run))];
    }
    let needed = if case.call.has_tray() { result_length(case) } else { None };
    [needed.map(|needed| more(case.tray, needed)), None]
}
