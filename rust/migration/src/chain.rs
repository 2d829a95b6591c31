//! Which equations make two paths equal: the chain of steps between them.

use crate::ffi::call;
use crate::{Refusal, MOST_CHAIN_BYTES};

/// The chain of steps from one path to another (places 2 and 3) of a schema
/// (place 1), as a chain sheet: the number of steps in 8 bits; then for each step
/// the equation in 5, the direction in 1 (0 left side to right, 1 back), and in 4
/// the edges before the replaced part.  The chain has the fewest steps possible,
/// and among those it is the first in the order of its numbers.  None where the
/// paths are unequal.
///
/// ```
/// // Document 01's case 7: edges a to d and f, and ab = cd.
/// let s = [
///     0x28, 0xA0, 0x04, 0x04, 0x4C, 0x08, 0x8C, //
///     0xD0, 0x08, 0x01, 0x02, 0x10, 0xC0,
/// ];
/// let (abf, cdf) = ([0x03, 0x00, 0x48], [0x03, 0x10, 0xC8]);
/// // One step: equation 0, left side to right, no edge before it; and back.
/// assert_eq!(migration::path_chain(&s, &abf, &cdf), Ok(Some(vec![0x01, 0x00, 0x00])));
/// assert_eq!(migration::path_chain(&s, &cdf, &abf), Ok(Some(vec![0x01, 0x04, 0x00])));
/// assert_eq!(migration::path_chain(&s, &abf, &abf), Ok(Some(vec![0x00])));
/// assert_eq!(migration::path_chain(&s, &abf, &[0x02, 0x10, 0xC0]), Ok(None)); // cd
/// ```
///
/// # Errors
/// 1 to 6 at place 1; 1, 2, 4 at place 2 or 3.
pub fn path_chain(s: &[u8], p: &[u8], q: &[u8]) -> Result<Option<Vec<u8>>, Refusal> {
    let mut tray = [0; MOST_CHAIN_BYTES];
    let length = path_chain_into(s, p, q, &mut tray)?;
    Ok(length.map(|length| tray[..length].to_vec()))
}

/// Like [`path_chain`], into a lent tray: the sheet's byte length.  Where the
/// paths are unequal, nothing is written and the tray may have any length.
///
/// ```
/// # let s = [
/// #     0x28, 0xA0, 0x04, 0x04, 0x4C, 0x08, 0x8C, //
/// #     0xD0, 0x08, 0x01, 0x02, 0x10, 0xC0,
/// # ];
/// let (ab, cd) = ([0x02, 0x00, 0x40], [0x02, 0x10, 0xC0]);
/// let mut tray = [0xEE; 4];
/// assert_eq!(migration::path_chain_into(&s, &ab, &cd, &mut tray), Ok(Some(3)));
/// assert_eq!(tray, [0x01, 0x00, 0x00, 0xEE]);
/// let refusal = migration::path_chain_into(&s, &ab, &cd, &mut tray[..2]).unwrap_err();
/// assert_eq!((refusal.number, refusal.place), (16, 0));
/// assert_eq!(migration::path_chain_into(&s, &ab, &[0x00], &mut []), Ok(None));
/// ```
///
/// # Errors
/// Those of [`path_chain`], last 16 at place 0.
pub fn path_chain_into(
    s: &[u8],
    p: &[u8],
    q: &[u8],
    tray: &mut [u8],
) -> Result<Option<usize>, Refusal> {
    let length = call!(migration_path_chain(s, p, q; tray))?;
    Ok((length > 0).then_some(length))
}
