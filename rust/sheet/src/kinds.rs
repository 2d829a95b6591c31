//! The kinds of values, by document 01's names; the clock runs as request C-12 of
//! document 02 has it.

use std::ops::RangeInclusive;

/// A kind of values.
#[derive(Debug, Clone, Copy, PartialEq, Eq)]
pub struct Kind {
    /// The name that the text form uses.
    pub name: &'static str,
    /// What the number counts.
    pub unit: &'static str,
    /// The smallest value.
    pub smallest: u32,
    /// The largest value.
    pub largest: u32,
    /// A value off scale that was on scale before.
    pub former: Option<Former>,
}

/// A value of tables from before the kind's range changed.
#[derive(Debug, Clone, Copy, PartialEq, Eq)]
pub struct Former {
    /// The value, off scale now.
    pub value: u32,
    /// What it stood for.
    pub meaning: &'static str,
    /// The value that stands for this now.
    pub now: u32,
}

impl Kind {
    /// The values of the kind.
    ///
    /// ```
    /// assert_eq!(sheet::kinds::KINDS[2].range(), 1..=720);
    /// ```
    pub fn range(&self) -> RangeInclusive<u32> {
        self.smallest..=self.largest
    }
}

const fn kind(name: &'static str, unit: &'static str, smallest: u32, largest: u32) -> Kind {
    Kind { name, unit, smallest, largest, former: None }
}

/// "twelve o'clock is written 720 and never 0."
const TWELVE: Former = Former { value: 0, meaning: "twelve o'clock", now: 720 };

/// The kinds by number.
pub const KINDS: [Kind; 16] = [
    kind("plain", "", 0, 4_294_967_295),
    kind("station", "mm", 0, 4_294_967_295),
    Kind { former: Some(TWELVE), ..kind("clock", "minutes", 1, 720) },
    kind("depth", "thousandths of wall", 0, 1000),
    kind("length", "mm", 0, 20_000),
    kind("width", "mm", 0, 5000),
    kind("wall", "0.01 mm", 0, 5000),
    kind("diameter", "mm", 0, 1600),
    kind("pressure", "kPa", 0, 25_000),
    kind("temperature", "0.1 K", 0, 4000),
    kind("day", "", 0, 65_535),
    kind("second", "seconds of day", 0, 86_399),
    kind("speed", "mm/s", 0, 10_000),
    kind("identifier", "", 0, 4_294_967_295),
    kind("flag", "", 0, 1),
    kind("unused", "", 0, 0),
];

/// The number of the kind with this name.  Document 01 writes kind 11 as
/// `second of day`; both forms are read.
///
/// ```
/// assert_eq!(sheet::kinds::number_of("station"), Some(1));
/// assert_eq!(sheet::kinds::number_of("second of day"), Some(11));
/// assert_eq!(sheet::kinds::number_of("color"), None);
/// ```
pub fn number_of(name: &str) -> Option<usize> {
    let words: Vec<&str> = name.split_whitespace().collect();
    let name = match words.as_slice() {
        ["second", "of", "day"] => "second",
        [name] => name,
        _ => return None,
    };
    KINDS.iter().position(|kind| kind.name == name)
}

/// The name of a kind; kinds are 0 to 15.
pub fn name_of(number: usize) -> &'static str {
    KINDS.get(number).map_or("missing kind", |kind| kind.name)
}

/// The names of all kinds, for messages.
pub(crate) fn all_names() -> String {
    KINDS.map(|kind| kind.name).join(", ")
}

#[cfg(test)]
mod tests {
    use super::*;

    #[test]
    fn the_ranges_are_the_references() {
        assert_eq!(KINDS.map(|kind| kind.range()), reference::plain::RANGES);
    }

    #[test]
    fn a_former_value_is_off_scale_and_what_is_written_now_is_not() {
        for kind in KINDS {
            let Some(former) = kind.former else { continue };
            assert!(!kind.range().contains(&former.value), "{}", kind.name);
            assert!(kind.range().contains(&former.now), "{}", kind.name);
        }
    }
}
