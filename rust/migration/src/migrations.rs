//! Delta, Sigma and Pi.

use crate::ffi::call;
use crate::{whole, Refusal, MOST_INSTANCE_BYTES};

/// Delta of an instance of T (place 4) along a mapping of S to T: the sheet of
/// an instance of S.
///
/// ```
/// # let s = [0x18, 0x42, 0x00, 0x04, 0x84, 0x04, 0x84];
/// # let t = [0x10, 0x21, 0x00, 0x04, 0x04];
/// # let f = [0x01, 0x01, 0x00, 0x80, 0x00];
/// // A book with one joint and no anomaly: no dent, one joint, no loss.
/// let book = [0x00, 0x00, 0x10];
/// assert_eq!(migration::delta(&s, &t, &f, &book), Ok(vec![0x00, 0x00, 0x10, 0x00]));
/// ```
///
/// # Errors
/// Those of the sheets at places 1 to 4, then 15 at place 0.
pub fn delta(s: &[u8], t: &[u8], f: &[u8], j: &[u8]) -> Result<Vec<u8>, Refusal> {
    whole(MOST_INSTANCE_BYTES, |tray| delta_into(s, t, f, j, tray))
}

/// Like [`delta`], into a lent tray: the sheet's byte length.
///
/// ```
/// # let s = [0x18, 0x42, 0x00, 0x04, 0x84, 0x04, 0x84];
/// # let t = [0x10, 0x21, 0x00, 0x04, 0x04];
/// # let f = [0x01, 0x01, 0x00, 0x80, 0x00];
/// let mut tray = [0xEE; 6];
/// assert_eq!(migration::delta_into(&s, &t, &f, &[0x00, 0x00, 0x10], &mut tray), Ok(4));
/// assert_eq!(tray, [0x00, 0x00, 0x10, 0x00, 0xEE, 0xEE]);
/// ```
///
/// # Errors
/// Those of [`delta`], last 16 at place 0.
pub fn delta_into(
    s: &[u8],
    t: &[u8],
    f: &[u8],
    j: &[u8],
    tray: &mut [u8],
) -> Result<usize, Refusal> {
    call!(migration_delta(s, t, f, j; tray))
}

/// Sigma of an instance of S (place 4) along an even mapping of S to T: the
/// sheet of an instance of T.
///
/// ```
/// let s = [0x10, 0x20, 0x00, 0x04]; // an edge 0 to 1
/// let t = [0x08, 0x00, 0x00]; // one node
/// let f = [0x00, 0x00]; // both nodes to it, the edge to the trivial path
/// let run = [0x00, 0x40, 0x10, 0x00]; // a row in each table
/// let refusal = migration::sigma(&s, &t, &f, &run).unwrap_err();
/// assert_eq!((refusal.number, refusal.place), (12, 0)); // document 01's case 4
/// ```
///
/// # Errors
/// Those of the sheets at places 1 to 4, then 12 at place 0.  The result has as
/// many rows as the run, so it is never overfull.
pub fn sigma(s: &[u8], t: &[u8], f: &[u8], i: &[u8]) -> Result<Vec<u8>, Refusal> {
    whole(MOST_INSTANCE_BYTES, |tray| sigma_into(s, t, f, i, tray))
}

/// Like [`sigma`], into a lent tray: the sheet's byte length.
///
/// ```
/// # let s = [0x18, 0x42, 0x00, 0x04, 0x84, 0x04, 0x84];
/// # let t = [0x10, 0x21, 0x00, 0x04, 0x04];
/// # let f = [0x01, 0x01, 0x00, 0x80, 0x00];
/// # let run = [
/// #     0x00, 0x80, 0x20, 0x04, 0x02, 0x00, 0x00, 0x80, 0x00, 0x01, //
/// #     0x5E, 0x00, 0x00, 0x00, 0x96, 0x00, 0x00, 0x01, 0x60, 0x80,
/// # ];
/// // Document 01's case 12: the base example's result needs 18 bytes.
/// let mut tray = [0xEE; 17];
/// let refusal = migration::sigma_into(&s, &t, &f, &run, &mut tray).unwrap_err();
/// assert_eq!((refusal.number, refusal.place), (16, 0));
/// assert_eq!(tray, [0xEE; 17]);
/// let mut tray = [0xEE; 18];
/// assert_eq!(migration::sigma_into(&s, &t, &f, &run, &mut tray), Ok(18));
/// ```
///
/// # Errors
/// Those of [`sigma`], last 16 at place 0.
pub fn sigma_into(
    s: &[u8],
    t: &[u8],
    f: &[u8],
    i: &[u8],
    tray: &mut [u8],
) -> Result<usize, Refusal> {
    call!(migration_sigma(s, t, f, i; tray))
}

/// Pi of an instance of S (place 4) along a mapping of S to T: the sheet of an
/// instance of T.  Sheets can be made on which it takes longer than anyone waits,
/// since what Pi asks is NP-hard: who takes sheets from strangers gives it a limit.
///
/// ```
/// let s = [0x10, 0x20, 0x00, 0x04]; // an edge 0 to 1
/// let t = [0x08, 0x00, 0x00]; // one node
/// let f = [0x00, 0x00]; // both nodes to it, the edge to the trivial path
/// let run = [0x00, 0x80, 0x10, 0x00, 0x00]; // two rows at 0, one at 1
/// assert_eq!(migration::pi(&s, &t, &f, &run), Ok(vec![0x00, 0x80])); // two rows
/// ```
///
/// # Errors
/// Those of the sheets at places 1 to 4, then 13, 14, 15 at place 0.
pub fn pi(s: &[u8], t: &[u8], f: &[u8], i: &[u8]) -> Result<Vec<u8>, Refusal> {
    whole(MOST_INSTANCE_BYTES, |tray| pi_into(s, t, f, i, tray))
}

/// Like [`pi`], into a lent tray: the sheet's byte length.
///
/// ```
/// let (s, t, f) = ([0x08, 0x00, 0x00], [0x08, 0x00, 0x00], [0x00]);
/// let mut tray = [0xEE; 3];
/// assert_eq!(migration::pi_into(&s, &t, &f, &[0x00, 0xC0], &mut tray), Ok(2));
/// assert_eq!(tray, [0x00, 0xC0, 0xEE]);
/// ```
///
/// # Errors
/// Those of [`pi`], last 16 at place 0.
pub fn pi_into(s: &[u8], t: &[u8], f: &[u8], i: &[u8], tray: &mut [u8]) -> Result<usize, Refusal> {
    call!(migration_pi(s, t, f, i; tray))
}
