//! The query: project, join, unite.

use crate::ffi::call;
use crate::{whole, Refusal, MOST_INSTANCE_BYTES};

/// Sigma along H of Pi along G of Delta along F of a run: the sheet of an instance
/// of the fourth schema.  F (place 5) goes from the second schema to the first, G
/// (place 6) from the second to the third, H (place 7), which is even, from the third
/// to the fourth; the run (place 8) is an instance of the first.  What is said of the
/// time of [`pi`](crate::pi) holds of the query too.
///
/// ```
/// // Document 01's base example: two dents, two joints, a loss.
/// let s1 = [0x18, 0x42, 0x00, 0x04, 0x84, 0x04, 0x84];
/// let run = [
///     0x00, 0x80, 0x20, 0x04, 0x02, 0x00, 0x00, 0x80, 0x00, 0x01, //
///     0x5E, 0x00, 0x00, 0x00, 0x96, 0x00, 0x00, 0x01, 0x60, 0x80,
/// ];
/// // Project: dents, joints, losses, and the joints once more; no link, no column.
/// let (s2, f) = ([0x20, 0x00, 0x00], [0x01, 0x21]);
/// // Join: each dent with each joint, and each loss with each joint.
/// let (s3, g) = ([0x10, 0x00, 0x00], [0x00, 0x11]);
/// // Unite: both in one table.
/// let (s4, h) = ([0x08, 0x00, 0x00], [0x00]);
/// let result = migration::query(&s1, &s2, &s3, &s4, &f, &g, &h, &run)?;
/// assert_eq!(result, [0x01, 0x80]); // 4 rows and 2
/// # Ok::<(), migration::Refusal>(())
/// ```
///
/// It accepts exactly where the three calls in turn accept, and gives what they give:
///
/// ```
/// # let s1 = [0x18, 0x42, 0x00, 0x04, 0x84, 0x04, 0x84];
/// # let run = [
/// #     0x00, 0x80, 0x20, 0x04, 0x02, 0x00, 0x00, 0x80, 0x00, 0x01, //
/// #     0x5E, 0x00, 0x00, 0x00, 0x96, 0x00, 0x00, 0x01, 0x60, 0x80,
/// # ];
/// # let (s2, f) = ([0x20, 0x00, 0x00], [0x01, 0x21]);
/// # let (s3, g) = ([0x10, 0x00, 0x00], [0x00, 0x11]);
/// # let (s4, h) = ([0x08, 0x00, 0x00], [0x00]);
/// let projected = migration::delta(&s2, &s1, &f, &run)?;
/// let joined = migration::pi(&s2, &s3, &g, &projected)?;
/// assert_eq!(migration::sigma(&s3, &s4, &h, &joined), Ok(vec![0x01, 0x80]));
/// # Ok::<(), migration::Refusal>(())
/// ```
///
/// # Errors
/// Those of the sheets at places 1 to 8; then at place 0 13 and 14 for G, 12 for H, 15
/// for Delta's result, 15 for Pi's.  Sigma's result has as many rows as Pi's, so it is
/// never overfull.  The three calls in turn may be refused with another number.
#[expect(clippy::too_many_arguments, reason = "eight sheets")]
pub fn query(
    s1: &[u8],
    s2: &[u8],
    s3: &[u8],
    s4: &[u8],
    f: &[u8],
    g: &[u8],
    h: &[u8],
    run: &[u8],
) -> Result<Vec<u8>, Refusal> {
    whole(MOST_INSTANCE_BYTES, |tray| query_into(s1, s2, s3, s4, f, g, h, run, tray))
}

/// Like [`query`], into a lent tray: the sheet's byte length.
///
/// ```
/// let (one, same) = ([0x08, 0x00, 0x00], [0x00]); // one table, and to itself
/// let run = [0x00, 0xC0]; // three rows
/// let mut tray = [0xEE; 3];
/// let length =
///     migration::query_into(&one, &one, &one, &one, &same, &same, &same, &run, &mut tray);
/// assert_eq!(length, Ok(2));
/// assert_eq!(tray, [0x00, 0xC0, 0xEE]);
/// ```
///
/// # Errors
/// Those of [`query`], last 16 at place 0.
#[expect(clippy::too_many_arguments, reason = "eight sheets and a tray")]
pub fn query_into(
    s1: &[u8],
    s2: &[u8],
    s3: &[u8],
    s4: &[u8],
    f: &[u8],
    g: &[u8],
    h: &[u8],
    run: &[u8],
    tray: &mut [u8],
) -> Result<usize, Refusal> {
    call!(migration_query(s1, s2, s3, s4, f, g, h, run; tray))
}
