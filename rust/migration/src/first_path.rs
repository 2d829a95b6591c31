//! The path question: which path stands for all that are equal to one.

use crate::ffi::call;
use crate::{whole, Refusal, MOST_PATH_BYTES};

/// The first path that is equal to a path (place 2) by the equations of its schema
/// (place 1), as a path sheet.  Paths are ordered by length, then start node, then
/// edge numbers from the left.  Two paths are equal exactly where these sheets are
/// the same.
///
/// ```
/// // Document 01's case 7: edges a to d and f, and ab = cd.
/// let s = [
///     0x28, 0xA0, 0x04, 0x04, 0x4C, 0x08, 0x8C, //
///     0xD0, 0x08, 0x01, 0x02, 0x10, 0xC0,
/// ];
/// let (abf, cdf) = ([0x03, 0x00, 0x48], [0x03, 0x10, 0xC8]);
/// assert_eq!(migration::first_path(&s, &cdf), Ok(abf.to_vec()));
/// assert_eq!(migration::first_path(&s, &abf), Ok(abf.to_vec())); // so they are equal
/// let cd = [0x02, 0x10, 0xC0];
/// assert_eq!(migration::first_path(&s, &cd), Ok(vec![0x02, 0x00, 0x40])); // ab
/// ```
///
/// # Errors
/// 1 to 6 at place 1; 1, 2, 4 at place 2.
pub fn first_path(s: &[u8], p: &[u8]) -> Result<Vec<u8>, Refusal> {
    whole(MOST_PATH_BYTES, |tray| first_path_into(s, p, tray))
}

/// Like [`first_path`], into a lent tray: the sheet's byte length, at least 1.
///
/// ```
/// # let s = [
/// #     0x28, 0xA0, 0x04, 0x04, 0x4C, 0x08, 0x8C, //
/// #     0xD0, 0x08, 0x01, 0x02, 0x10, 0xC0,
/// # ];
/// let cd = [0x02, 0x10, 0xC0];
/// let mut tray = [0xEE; 4];
/// assert_eq!(migration::first_path_into(&s, &cd, &mut tray), Ok(3));
/// assert_eq!(tray, [0x02, 0x00, 0x40, 0xEE]);
/// let refusal = migration::first_path_into(&s, &cd, &mut tray[..2]).unwrap_err();
/// assert_eq!((refusal.number, refusal.place), (16, 0));
/// ```
///
/// # Errors
/// Those of [`first_path`], last 16 at place 0.
pub fn first_path_into(s: &[u8], p: &[u8], tray: &mut [u8]) -> Result<usize, Refusal> {
    call!(migration_first_path(s, p; tray))
}
