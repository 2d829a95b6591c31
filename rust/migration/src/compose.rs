//! Composed mappings: two hops in one.

use crate::ffi::call;
use crate::{whole, Refusal, MOST_MAPPING_BYTES};

/// The composed mapping of F from S to T (place 4) and G from T to U (place 5): the sheet
/// of a mapping from S to U.  Each node and each attribute goes to its image's image, each
/// edge to the images of its image's edges, joined in their order as they are: of equal
/// paths none is put in another's place.
///
/// ```
/// // Document 01's base example: dents, joints and losses; anomalies and joints.
/// let s = [0x18, 0x42, 0x00, 0x04, 0x84, 0x04, 0x84];
/// let t = [0x10, 0x21, 0x00, 0x04, 0x04];
/// let f = [0x01, 0x01, 0x00, 0x80, 0x00];
/// // Anomalies, welds and joints: from an anomaly to its weld, from there to its joint; a
/// // depth and a station.
/// let u = [0x18, 0x42, 0x00, 0x04, 0x48, 0x0C, 0x04];
/// let g = [0x02, 0x20, 0x04, 0x40];
/// // Dents and losses to anomalies, the links of both to two links, both stations to one.
/// let composed = migration::compose(&s, &t, &u, &f, &g)?;
/// assert_eq!(composed, [0x02, 0x02, 0x00, 0x48, 0x01, 0x11]);
/// assert_eq!(migration::check_mapping(&s, &u, &composed), Ok(()));
/// # Ok::<(), migration::Refusal>(())
/// ```
///
/// Delta along it gives what Delta along G and then along F gives, wherever all three calls
/// accept:
///
/// ```
/// # let s = [0x18, 0x42, 0x00, 0x04, 0x84, 0x04, 0x84];
/// # let t = [0x10, 0x21, 0x00, 0x04, 0x04];
/// # let f = [0x01, 0x01, 0x00, 0x80, 0x00];
/// # let u = [0x18, 0x42, 0x00, 0x04, 0x48, 0x0C, 0x04];
/// # let g = [0x02, 0x20, 0x04, 0x40];
/// # let composed = migration::compose(&s, &t, &u, &f, &g)?;
/// // One anomaly of depth 250 at station 700, a weld, a joint.
/// let book = [
///     0x00, 0x40, 0x10, 0x04, 0x00, 0x00, 0x00, 0x00, 0x00, 0xFA, 0x00, 0x00, 0x02, 0xBC,
/// ];
/// let exchanged = migration::delta(&t, &u, &g, &book)?;
/// let in_turn = migration::delta(&s, &t, &f, &exchanged)?;
/// assert_eq!(migration::delta(&s, &u, &composed, &book), Ok(in_turn));
/// # Ok::<(), migration::Refusal>(())
/// ```
///
/// # Errors
/// Those of the sheets at places 1 to 5: S, T, U, F, G.
pub fn compose(s: &[u8], t: &[u8], u: &[u8], f: &[u8], g: &[u8]) -> Result<Vec<u8>, Refusal> {
    whole(MOST_MAPPING_BYTES, |tray| compose_into(s, t, u, f, g, tray))
}

/// Like [`compose`], into a lent tray: the sheet's byte length.
///
/// ```
/// let (one, same) = ([0x08, 0x00, 0x00], [0x00]); // one table, and to itself
/// let mut tray = [0xEE; 3];
/// assert_eq!(migration::compose_into(&one, &one, &one, &same, &same, &mut tray), Ok(1));
/// assert_eq!(tray, [0x00, 0xEE, 0xEE]);
/// let refusal = migration::compose_into(&one, &one, &one, &same, &same, &mut []).unwrap_err();
/// assert_eq!((refusal.number, refusal.place), (16, 0));
/// ```
///
/// # Errors
/// Those of [`compose`], last 16 at place 0.
pub fn compose_into(
    s: &[u8],
    t: &[u8],
    u: &[u8],
    f: &[u8],
    g: &[u8],
    tray: &mut [u8],
) -> Result<usize, Refusal> {
    call!(migration_compose(s, t, u, f, g; tray))
}
