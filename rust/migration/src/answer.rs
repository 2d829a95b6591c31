//! The number that a call of the static library gives back: "below 2 to the
//! power 32" accepted, else 2^32 + 256 * number + place.

use crate::Refusal;

/// The first number that means a refusal.
const REFUSED: u64 = 1 << 32;

/// What the library's answer means.  For a call that writes a sheet the number
/// is its byte length, for a check 0; for a chain 0 where there is none; for a
/// change of a run 65,536 times the run's length plus the pushed sheet's.
pub(crate) fn read(answer: u64) -> Result<usize, Refusal> {
    match answer.checked_sub(REFUSED) {
        None => Ok(answer as usize),
        Some(rest) => Err(Refusal { number: (rest / 256) as u8, place: (rest % 256) as u8 }),
    }
}

#[cfg(test)]
mod tests {
    use super::*;

    #[test]
    fn numbers_below_the_bound_are_lengths() {
        assert_eq!(read(0), Ok(0));
        assert_eq!(read(51_220), Ok(51_220));
        assert_eq!(read(REFUSED - 1), Ok(0xFFFF_FFFF));
    }

    #[test]
    fn every_refusal_is_read_back() {
        for number in 1..=19 {
            for place in 0..=8 {
                let answer = REFUSED + 256 * u64::from(number) + u64::from(place);
                assert_eq!(read(answer), Err(Refusal { number, place }));
            }
        }
    }
}
