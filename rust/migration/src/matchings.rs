//! The two checkers and the two turnings.  All four take S, T, mapping, run,
//! book and list (places 1 to 6) and make the same tests.

use crate::ffi::call;
use crate::{whole, Refusal, MOST_MATCHING_BYTES};

/// The pushed side's checker: whether the list is a matching from Sigma of the
/// run to the book.
///
/// ```
/// // One table on either side, two rows in the run, one in the book.
/// let (s, t, f) = ([0x08, 0x00, 0x00], [0x08, 0x00, 0x00], [0x00]);
/// let (run, book) = ([0x00, 0x80], [0x00, 0x40]);
/// let both_to_row_0 = [0x00, 0x00, 0x00];
/// let one_to_row_1 = [0x00, 0x80, 0x00];
/// let check = |list| migration::check_pushed(&s, &t, &f, &run, &book, list);
/// assert_eq!(check(&both_to_row_0), Ok(()));
/// let refusal = check(&one_to_row_1).unwrap_err();
/// assert_eq!((refusal.number, refusal.place), (17, 6));
/// ```
///
/// # Errors
/// Those of the sheets at places 1 to 5, then 12, 15 at place 0, then 1, 2, 17
/// at place 6.
pub fn check_pushed(
    s: &[u8],
    t: &[u8],
    f: &[u8],
    run: &[u8],
    book: &[u8],
    list: &[u8],
) -> Result<(), Refusal> {
    call!(migration_check_pushed(s, t, f, run, book, list)).map(drop)
}

/// The raw side's checker: whether the list is a matching from the run to Delta
/// of the book.
///
/// ```
/// # let (s, t, f) = ([0x08, 0x00, 0x00], [0x08, 0x00, 0x00], [0x00]);
/// # let (run, book) = ([0x00, 0x80], [0x00, 0x40]);
/// let list = [0x00, 0x00, 0x00];
/// assert_eq!(migration::check_raw(&s, &t, &f, &run, &book, &list), Ok(()));
/// ```
///
/// # Errors
/// Those of [`check_pushed`].
pub fn check_raw(
    s: &[u8],
    t: &[u8],
    f: &[u8],
    run: &[u8],
    book: &[u8],
    list: &[u8],
) -> Result<(), Refusal> {
    call!(migration_check_raw(s, t, f, run, book, list)).map(drop)
}

/// Turns a matching of the pushed side into the one of the raw side in which
/// each raw row meets the same book row.
///
/// ```
/// # let s = [0x18, 0x42, 0x00, 0x04, 0x84, 0x04, 0x84];
/// # let t = [0x10, 0x21, 0x00, 0x04, 0x04];
/// # let f = [0x01, 0x01, 0x00, 0x80, 0x00];
/// # let run = [
/// #     0x00, 0x80, 0x20, 0x04, 0x02, 0x00, 0x00, 0x80, 0x00, 0x01, //
/// #     0x5E, 0x00, 0x00, 0x00, 0x96, 0x00, 0x00, 0x01, 0x60, 0x80,
/// # ];
/// # let book = [
/// #     0x00, 0xC0, 0x20, 0x00, 0x04, 0x02, 0x00, 0x00, 0x02, //
/// #     0x58, 0x00, 0x00, 0x05, 0x82, 0x00, 0x00, 0x05, 0x78,
/// # ];
/// // Document 01's case 3: 2 0 1 0 1 (pushed) becomes 2 0 0 1 1 (raw).
/// let pushed = [0x01, 0x00, 0x00, 0x20, 0x00, 0x08];
/// let raw = [0x01, 0x00, 0x00, 0x00, 0x10, 0x08];
/// let turned = migration::pushed_to_raw(&s, &t, &f, &run, &book, &pushed);
/// assert_eq!(turned, Ok(raw.to_vec()));
/// let back = migration::raw_to_pushed(&s, &t, &f, &run, &book, &raw);
/// assert_eq!(back, Ok(pushed.to_vec()));
/// ```
///
/// # Errors
/// Those of [`check_pushed`].
pub fn pushed_to_raw(
    s: &[u8],
    t: &[u8],
    f: &[u8],
    run: &[u8],
    book: &[u8],
    list: &[u8],
) -> Result<Vec<u8>, Refusal> {
    whole(MOST_MATCHING_BYTES, |tray| pushed_to_raw_into(s, t, f, run, book, list, tray))
}

/// Like [`pushed_to_raw`], into a lent tray: the sheet's byte length.
///
/// ```
/// # let (s, t, f) = ([0x08, 0x00, 0x00], [0x08, 0x00, 0x00], [0x00]);
/// # let (run, book) = ([0x00, 0x80], [0x00, 0x40]);
/// let list = [0x00, 0x00, 0x00];
/// let mut tray = [0xEE; 2];
/// let small = migration::pushed_to_raw_into(&s, &t, &f, &run, &book, &list, &mut tray);
/// assert_eq!(small.unwrap_err().number, 16);
/// let mut tray = [0xEE; 4];
/// let turned = migration::pushed_to_raw_into(&s, &t, &f, &run, &book, &list, &mut tray);
/// assert_eq!((turned, tray), (Ok(3), [0x00, 0x00, 0x00, 0xEE]));
/// ```
///
/// # Errors
/// Those of [`check_pushed`], last 16 at place 0.
pub fn pushed_to_raw_into(
    s: &[u8],
    t: &[u8],
    f: &[u8],
    run: &[u8],
    book: &[u8],
    list: &[u8],
    tray: &mut [u8],
) -> Result<usize, Refusal> {
    call!(migration_pushed_to_raw(s, t, f, run, book, list; tray))
}

/// Turns a matching of the raw side into the one of the pushed side in which
/// each raw row meets the same book row; a fuller example stands at
/// [`pushed_to_raw`].
///
/// ```
/// # let (s, t, f) = ([0x08, 0x00, 0x00], [0x08, 0x00, 0x00], [0x00]);
/// # let (run, book) = ([0x00, 0x80], [0x00, 0x40]);
/// let list = [0x00, 0x00, 0x00];
/// let turned = migration::raw_to_pushed(&s, &t, &f, &run, &book, &list);
/// assert_eq!(turned, Ok(list.to_vec()));
/// ```
///
/// # Errors
/// Those of [`check_pushed`].
pub fn raw_to_pushed(
    s: &[u8],
    t: &[u8],
    f: &[u8],
    run: &[u8],
    book: &[u8],
    list: &[u8],
) -> Result<Vec<u8>, Refusal> {
    whole(MOST_MATCHING_BYTES, |tray| raw_to_pushed_into(s, t, f, run, book, list, tray))
}

/// Like [`raw_to_pushed`], into a lent tray: the sheet's byte length.
///
/// ```
/// # let (s, t, f) = ([0x08, 0x00, 0x00], [0x08, 0x00, 0x00], [0x00]);
/// # let (run, book) = ([0x00, 0x80], [0x00, 0x40]);
/// let list = [0x00, 0x00, 0x00];
/// let mut tray = [0xEE; 3];
/// let turned = migration::raw_to_pushed_into(&s, &t, &f, &run, &book, &list, &mut tray);
/// assert_eq!((turned, tray), (Ok(3), list));
/// ```
///
/// # Errors
/// Those of [`check_pushed`], last 16 at place 0.
pub fn raw_to_pushed_into(
    s: &[u8],
    t: &[u8],
    f: &[u8],
    run: &[u8],
    book: &[u8],
    list: &[u8],
    tray: &mut [u8],
) -> Result<usize, Refusal> {
    call!(migration_raw_to_pushed(s, t, f, run, book, list; tray))
}
