//! Why a sheet is sent back.

use std::fmt;

/// A call's refusal: "the number and the sheet's place counted from 1 (0 for 12
/// to 16)."  Of a change of a run "the tests of the change itself have place 0",
/// whatever their number.
///
/// ```
/// let refusal = migration::check_schema(&[]).unwrap_err();
/// assert_eq!((refusal.number, refusal.place), (1, 1));
/// assert_eq!(refusal.word(), "cut");
/// assert_eq!(refusal.sentence(), "the bits end before the last field does");
/// assert_eq!(
///     refusal.to_string(),
///     "refused, 1 cut, sheet 1: the bits end before the last field does"
/// );
/// ```
#[derive(Debug, Clone, Copy, PartialEq, Eq, PartialOrd, Ord, Hash)]
pub struct Refusal {
    /// The first number that applies in the papers' order, 1 to 19.
    pub number: u8,
    /// The place of the sheet among those lent, counted from 1; 0 where it is
    /// about all sheets together, or about a change itself.
    pub place: u8,
}

/// Word and condition by number, as in document 01's table; 10 as request C-12 of
/// document 02 has it, 18 and 19 as C-16 has them, whose changes are added to 12, 15 and
/// 16.  In 7 and 8 S and T are the schemas that the mapping goes from and to: of the query
/// S2 and S1 at place 5, S2 and S3 at 6, S3 and S4 at 7; of composing T and U at place 5.
/// Of the query 12 is about Sigma along H, 13 and 14 about Pi along G.  Of a change of a
/// run 12 is about its Sigma, 15 about a row that is added to 512, 16 about either tray.
const TABLE: [(&str, &str); 19] = [
    ("cut", "the bits end before the last field does"),
    ("tail", "a filling bit is 1, or a byte follows"),
    ("count", "a count, or the sum of the row counts, beyond its limit, or no node"),
    (
        "stray",
        "a schema or path names a missing node or edge, a path's edges do not join, \
         or an equation's sides differ in start or end",
    ),
    ("ring", "the edges form a loop"),
    ("crowd", "more than 256 paths"),
    (
        "misfit",
        "an image is missing in T, does not join, has the wrong end, or an attribute's image \
         has another kind or sits at another node than its node's image",
    ),
    ("broken rule", "an equation of S has unequal images in T"),
    ("dangling", "a target row at or beyond its table's count"),
    ("off scale", "a value below its kind's smallest or above its largest"),
    ("bent row", "a row where the two sides of an equation lead to different rows"),
    ("uneven", "Sigma, a change, a checker or transposition, and the mapping is not even"),
    ("unpaired", "Pi, and the attribute mapping is not a bijection"),
    ("wide", "Pi, and a table has more than 64 components"),
    ("overfull", "a migrated instance, or a run with an added row, has more than 512 rows"),
    ("small tray", "a result needs more bytes than were lent"),
    ("no match", "the list is not a matching"),
    ("absent", "the named table or row does not exist"),
    ("still held", "a row to be withdrawn that another row links to"),
];

impl Refusal {
    fn entry(&self) -> (&'static str, &'static str) {
        let place = usize::from(self.number).checked_sub(1);
        let entry = place.and_then(|place| TABLE.get(place));
        *entry.unwrap_or(&("unlisted", "a number that the papers do not list"))
    }

    /// The papers' word for the number.
    ///
    /// ```
    /// assert_eq!(migration::Refusal { number: 9, place: 4 }.word(), "dangling");
    /// assert_eq!(migration::Refusal { number: 18, place: 0 }.word(), "absent");
    /// ```
    pub fn word(&self) -> &'static str {
        self.entry().0
    }

    /// The condition for the number.
    ///
    /// ```
    /// let refusal = migration::Refusal { number: 17, place: 6 };
    /// assert_eq!(refusal.sentence(), "the list is not a matching");
    /// ```
    pub fn sentence(&self) -> &'static str {
        self.entry().1
    }
}

impl fmt::Display for Refusal {
    fn fmt(&self, out: &mut fmt::Formatter<'_>) -> fmt::Result {
        write!(out, "refused, {} {}", self.number, self.word())?;
        if self.place > 0 {
            write!(out, ", sheet {}", self.place)?;
        }
        write!(out, ": {}", self.sentence())
    }
}

impl std::error::Error for Refusal {}

#[cfg(test)]
mod tests {
    use super::*;

    #[test]
    fn each_listed_number_has_its_own_word() {
        let words: Vec<_> = (1..=19).map(|number| Refusal { number, place: 0 }.word()).collect();
        let mut distinct = words.clone();
        distinct.sort();
        distinct.dedup();
        assert_eq!(distinct.len(), 19);
        assert!(!words.contains(&"unlisted"));
    }

    #[test]
    fn a_number_outside_the_list_is_told_as_such() {
        for number in [0, 20, 255] {
            assert_eq!(Refusal { number, place: 0 }.word(), "unlisted");
        }
    }

    #[test]
    fn a_refusal_about_no_single_sheet_names_none() {
        let text = Refusal { number: 16, place: 0 }.to_string();
        assert_eq!(text, "refused, 16 small tray: a result needs more bytes than were lent");
    }
}
