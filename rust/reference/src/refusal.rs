//! The numbers of document 01's table "Why a sheet is sent back", and those that
//! request C-16 of document 02 adds.

/// "A refusal is the number and the sheet's place counted from 1 (0 for 12 to
/// 16)."  By request C-16 "the tests of the change itself have place 0", whatever
/// their number.
#[derive(Debug, Clone, Copy, PartialEq, Eq, Hash)]
pub struct Refusal {
    /// The first number that applies, 1 to 19.
    pub number: u8,
    /// The refused sheet's place in judging order, or 0.
    pub place: u8,
}

/// What judging one sheet yields: a value, or the number that applies.  The
/// calls add the place.
pub type Judged<T> = Result<T, u8>;

/// "the bits end before the last field does"
pub const CUT: u8 = 1;
/// "a filling bit is 1, or a byte follows"
pub const TAIL: u8 = 2;
/// "a count, or the sum of the row counts, beyond its limit, or no node"
pub const COUNT: u8 = 3;
/// "a schema or path names a missing node or edge, a path's edges do not join,
/// or an equation's sides differ in start or end"
pub const STRAY: u8 = 4;
/// "the edges form a loop"
pub const RING: u8 = 5;
/// "more than 256 paths"
pub const CROWD: u8 = 6;
/// "an image is missing in T, does not join, has the wrong end, or an
/// attribute's image has another kind or sits at another node than its node's
/// image"
pub const MISFIT: u8 = 7;
/// "an equation of S has unequal images in T"
pub const BROKEN_RULE: u8 = 8;
/// "a target row at or beyond its table's count"
pub const DANGLING: u8 = 9;
/// "a value above its kind's largest", and by request C-12 of document 02 one
/// below its smallest too: "A kind now has a smallest value as well as a
/// largest, and 10 is given below the one or above the other."
pub const OFF_SCALE: u8 = 10;
/// "a row where the two sides of an equation lead to different rows"
pub const BENT_ROW: u8 = 11;
/// "Sigma, a checker or transposition, and the mapping is not even"
pub const UNEVEN: u8 = 12;
/// "Pi, and the attribute mapping is not a bijection"
pub const UNPAIRED: u8 = 13;
/// "Pi, and a table has more than 64 components"
pub const WIDE: u8 = 14;
/// "a migrated instance has more than 512 rows", and by request C-16 of document
/// 02 an added row "where the run would pass 512 rows"
pub const OVERFULL: u8 = 15;
/// "the result needs more bytes than were lent"
pub const SMALL_TRAY: u8 = 16;
/// "the list is not a matching"
pub const NO_MATCH: u8 = 17;
/// "absent, the named table or row does not exist"
pub const ABSENT: u8 = 18;
/// "still held, a row to be withdrawn that another row links to"
pub const STILL_HELD: u8 = 19;

/// The given number if `holds` is false.
pub fn demand(holds: bool, number: u8) -> Judged<()> {
    if holds {
        Ok(())
    } else {
        Err(number)
    }
}
