//! Rows that come and go: changes of a run that stands in a tray, with its pushed
//! sheet kept current.

use crate::{answer, ffi, Refusal};

/// The byte lengths after an accepted change.
#[derive(Debug, Clone, Copy, PartialEq, Eq, PartialOrd, Ord, Hash)]
pub struct Changed {
    /// The changed run's, at the start of its tray; what the next change of this run is
    /// lent as its `run_length`.
    pub run: usize,
    /// The pushed sheet's, at the start of the pushed tray.
    pub pushed: usize,
}

impl Changed {
    /// "65,536 times the run's length plus the pushed sheet's"
    fn of(number: usize) -> Self {
        Changed { run: number / 65_536, pushed: number % 65_536 }
    }
}

/// Adds a row to a table of a run (place 4), along an even mapping of S to T (places 1
/// to 3).  The row stands at its table's end, with the links and values of a row sheet:
/// the target row of each edge from the table, in the order of edge numbers, 9 bits each;
/// then the value of each attribute at it, in the order of attribute numbers, 32 bits
/// each.  A table with neither has the empty row sheet.
///
/// The run is the sheet that the first `run_length` bytes of the tray `run` are, or the
/// whole tray where `run_length` is beyond it.  After an accepted change the tray starts
/// with the changed run's sheet, and the tray `pushed`, whose old bytes are not read, with
/// [`sigma`](crate::sigma) of it; the bytes beyond each keep their values.  A refused
/// change leaves both trays.  Trays of [`MOST_INSTANCE_BYTES`](crate::MOST_INSTANCE_BYTES)
/// hold every result.
///
/// A dent at joint 0, station 500, added to document 01's base example:
///
/// ```
/// let s = [0x18, 0x42, 0x00, 0x04, 0x84, 0x04, 0x84];
/// let t = [0x10, 0x21, 0x00, 0x04, 0x04];
/// let f = [0x01, 0x01, 0x00, 0x80, 0x00];
/// let mut run = vec![
///     0x00, 0x80, 0x20, 0x04, 0x02, 0x00, 0x00, 0x80, 0x00, 0x01, //
///     0x5E, 0x00, 0x00, 0x00, 0x96, 0x00, 0x00, 0x01, 0x60, 0x80,
/// ];
/// let length = run.len();
/// run.resize(migration::MOST_INSTANCE_BYTES, 0);
/// let mut pushed = vec![0; migration::MOST_INSTANCE_BYTES];
/// let row = [0x00, 0x00, 0x00, 0x00, 0xFA, 0x00]; // joint 0 in 9 bits, 500 in 32
/// let changed = migration::add_row(&s, &t, &f, &mut run, length, 0, &row, &mut pushed)?;
/// assert_eq!((changed.run, changed.pushed), (25, 23));
/// assert_eq!(run[..4], [0x00, 0xC0, 0x20, 0x04]); // three dents, two joints, a loss
/// let fresh = migration::sigma(&s, &t, &f, &run[..changed.run])?;
/// assert_eq!(pushed[..changed.pushed], fresh);
/// # Ok::<(), migration::Refusal>(())
/// ```
///
/// # Errors
/// Those of the sheets at places 1 to 4.  Then at place 0 12; 18 where the table is no
/// node of S; 1, 2, 9, 10, 11 of the row; 15 where the run has 512 rows already; last 16
/// where either result does not fit its tray.
#[expect(clippy::too_many_arguments, reason = "four sheets, two numbers and two trays")]
pub fn add_row(
    s: &[u8],
    t: &[u8],
    f: &[u8],
    run: &mut [u8],
    run_length: usize,
    table: usize,
    row: &[u8],
    pushed: &mut [u8],
) -> Result<Changed, Refusal> {
    // SAFETY: each pointer is lent with its slice's own length, the two trays exclusively;
    // see `ffi`.
    let answer = unsafe {
        ffi::migration_add_row(
            s.as_ptr(),
            s.len(),
            t.as_ptr(),
            t.len(),
            f.as_ptr(),
            f.len(),
            run.as_mut_ptr(),
            run.len(),
            run_length as u64,
            table as u64,
            row.as_ptr(),
            row.len(),
            pushed.as_mut_ptr(),
            pushed.len(),
        )
    };
    answer::read(answer).map(Changed::of)
}

/// Withdraws a row from a table of a run: later rows of that table move down by one,
/// and so do the links to them.  Trays and lengths are as in [`add_row`].
///
/// ```
/// # let s = [0x18, 0x42, 0x00, 0x04, 0x84, 0x04, 0x84];
/// # let t = [0x10, 0x21, 0x00, 0x04, 0x04];
/// # let f = [0x01, 0x01, 0x00, 0x80, 0x00];
/// # let mut run = [
/// #     0x00, 0x80, 0x20, 0x04, 0x02, 0x00, 0x00, 0x80, 0x00, 0x01, //
/// #     0x5E, 0x00, 0x00, 0x00, 0x96, 0x00, 0x00, 0x01, 0x60, 0x80,
/// # ];
/// // The base example's first dent, which stands at joint 1; then that joint, which the
/// // loss still links to.
/// let mut pushed = [0xEE; 18];
/// let changed = migration::withdraw_row(&s, &t, &f, &mut run, 20, 0, 0, &mut pushed)?;
/// assert_eq!((changed.run, changed.pushed), (14, 13));
/// assert_eq!(pushed[13..], [0xEE; 5]);
/// let held = migration::withdraw_row(&s, &t, &f, &mut run, changed.run, 1, 1, &mut pushed);
/// assert_eq!(held.unwrap_err().word(), "still held");
/// # Ok::<(), migration::Refusal>(())
/// ```
///
/// # Errors
/// Those of the sheets at places 1 to 4.  Then at place 0 12; 18 where the table is no
/// node of S or has no such row; 19 where some row's link leads to it; last 16 where the
/// pushed sheet does not fit its tray.
#[expect(clippy::too_many_arguments, reason = "three sheets, three numbers and two trays")]
pub fn withdraw_row(
    s: &[u8],
    t: &[u8],
    f: &[u8],
    run: &mut [u8],
    run_length: usize,
    table: usize,
    row: usize,
    pushed: &mut [u8],
) -> Result<Changed, Refusal> {
    // SAFETY: as in `add_row`.
    let answer = unsafe {
        ffi::migration_withdraw_row(
            s.as_ptr(),
            s.len(),
            t.as_ptr(),
            t.len(),
            f.as_ptr(),
            f.len(),
            run.as_mut_ptr(),
            run.len(),
            run_length as u64,
            table as u64,
            row as u64,
            pushed.as_mut_ptr(),
            pushed.len(),
        )
    };
    answer::read(answer).map(Changed::of)
}

#[cfg(test)]
mod tests {
    use super::*;

    /// The largest lengths that there are, and the smallest.
    #[test]
    fn both_lengths_are_read_back() {
        for (run, pushed) in [(20, 18), (2, 2), (51_220, 51_220), (51_120, 2), (2, 51_120)] {
            assert_eq!(Changed::of(65_536 * run + pushed), Changed { run, pushed });
        }
    }
}
