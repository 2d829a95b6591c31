//! The checks of schemas, mappings and instances.

use crate::ffi::call;
use crate::Refusal;

/// Checks a schema sheet (place 1).
///
/// ```
/// // Dent, Joint and Loss; Dent and Loss linked to Joint; a station on both.
/// let s = [0x18, 0x42, 0x00, 0x04, 0x84, 0x04, 0x84];
/// assert_eq!(migration::check_schema(&s), Ok(()));
/// let refusal = migration::check_schema(&s[..6]).unwrap_err();
/// assert_eq!((refusal.number, refusal.place), (1, 1));
/// ```
///
/// # Errors
/// 1 to 6 at place 1.
pub fn check_schema(s: &[u8]) -> Result<(), Refusal> {
    call!(migration_check_schema(s)).map(drop)
}

/// Checks a mapping sheet (place 3) of schema S (place 1) to schema T (place
/// 2).
///
/// ```
/// let s = [0x18, 0x42, 0x00, 0x04, 0x84, 0x04, 0x84];
/// let t = [0x10, 0x21, 0x00, 0x04, 0x04];
/// let f = [0x01, 0x01, 0x00, 0x80, 0x00];
/// assert_eq!(migration::check_mapping(&s, &t, &f), Ok(()));
/// // Joint sent to Anomaly: the links' images have the wrong end.
/// let f = [0x00, 0x01, 0x00, 0x80, 0x00];
/// let refusal = migration::check_mapping(&s, &t, &f).unwrap_err();
/// assert_eq!((refusal.number, refusal.place), (7, 3));
/// ```
///
/// # Errors
/// 1 to 6 at place 1 or 2; 1, 2, 7, 8 at place 3.
pub fn check_mapping(s: &[u8], t: &[u8], f: &[u8]) -> Result<(), Refusal> {
    call!(migration_check_mapping(s, t, f)).map(drop)
}

/// Checks an instance sheet (place 2) over a schema (place 1).
///
/// ```
/// let s = [0x08, 0x00, 0x00]; // one table without links and columns
/// assert_eq!(migration::check_instance(&s, &[0x80, 0x00]), Ok(())); // 512 rows
/// let refusal = migration::check_instance(&s, &[0x80, 0x40]).unwrap_err(); // 513
/// assert_eq!((refusal.number, refusal.place), (3, 2));
/// ```
///
/// # Errors
/// 1 to 6 at place 1; 1, 2, 3, 9, 10, 11 at place 2.
pub fn check_instance(s: &[u8], i: &[u8]) -> Result<(), Refusal> {
    call!(migration_check_instance(s, i)).map(drop)
}
