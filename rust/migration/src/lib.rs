//! Delta, Sigma and Pi for inspection run records, as safe calls on byte
//! slices.
//!
//! Every call takes sheets as document 01 lays them out and may be lent slices
//! of every length and content.  It ends with one result or with one
//! [`Refusal`], a number and the place of the sheet that is sent back, and it
//! changes no lent byte when it refuses.
//!
//! The calls that give a sheet come in two forms: one that gives the sheet as
//! bytes of its own, and one ending in `_into` that writes into a lent tray and
//! gives the sheet's length; the bytes of the tray beyond it keep their values.
//! [`add_row`] and [`withdraw_row`] change a run in the tray in which it stands.
//!
//! Document 01's base example, pushed by Sigma:
//!
//! ```
//! let s = [0x18, 0x42, 0x00, 0x04, 0x84, 0x04, 0x84];
//! let t = [0x10, 0x21, 0x00, 0x04, 0x04];
//! let f = [0x01, 0x01, 0x00, 0x80, 0x00];
//! let run = [
//!     0x00, 0x80, 0x20, 0x04, 0x02, 0x00, 0x00, 0x80, 0x00, 0x01, //
//!     0x5E, 0x00, 0x00, 0x00, 0x96, 0x00, 0x00, 0x01, 0x60, 0x80,
//! ];
//! let pushed = migration::sigma(&s, &t, &f, &run)?;
//! assert_eq!(pushed.len(), 18);
//! assert_eq!(pushed[..6], [0x00, 0xC0, 0x20, 0x08, 0x00, 0x02]);
//! # Ok::<(), migration::Refusal>(())
//! ```
//!
//! # Stack
//!
//! The calls have their working arrays on the stack.  A call needs at most as many
//! bytes of it as its constant says ([`STACK_PI`] and the others), whatever it is
//! lent, below the frame that makes it; a thread that makes the call needs them
//! besides what its own code needs.
//!
//! # Where the answers come from
//!
//! The calls are those of `libmigration.a`, the static library that is built
//! from the proved code; `build.rs` says where it is looked for.

#![warn(missing_docs)]
#![deny(unsafe_op_in_unsafe_fn)]

mod answer;
mod chain;
mod checks;
mod compose;
mod ffi;
mod first_path;
mod matchings;
mod migrations;
mod query;
mod refusal;
mod rows;

pub use chain::{path_chain, path_chain_into};
pub use checks::{check_instance, check_mapping, check_schema};
pub use compose::{compose, compose_into};
pub use first_path::{first_path, first_path_into};
pub use matchings::{
    check_pushed, check_raw, pushed_to_raw, pushed_to_raw_into, raw_to_pushed, raw_to_pushed_into,
};
pub use migrations::{delta, delta_into, pi, pi_into, sigma, sigma_into};
pub use query::{query, query_into};
pub use refusal::Refusal;
pub use rows::{add_row, withdraw_row, Changed};

/// The most bytes that an instance sheet has: "An instance sheet is at most
/// 51,220 bytes."  A tray of this size holds every result of Delta, Sigma, Pi and
/// the query, and every run that is changed.
pub const MOST_INSTANCE_BYTES: usize = 51_220;

/// The most bytes that a matching sheet has: 512 rows of 9 bits.  A tray of
/// this size holds every result of a turning.
pub const MOST_MATCHING_BYTES: usize = 576;

/// The most bytes that a path sheet has: start, length and 15 edges of 5 bits.  A
/// tray of this size holds every result of [`first_path`].
pub const MOST_PATH_BYTES: usize = 11;

/// The most bytes that a chain sheet has: 255 steps of 10 bits.  A tray of this
/// size holds every result of [`path_chain`].
pub const MOST_CHAIN_BYTES: usize = 320;

/// The most bytes that a mapping sheet has: 16 nodes of 4 bits, 32 edges of 4 bits and 15
/// edges of 5, 16 attributes of 4.  A tray of this size holds every result of
/// [`compose`].
pub const MOST_MAPPING_BYTES: usize = 332;

/// The stack that [`check_schema`] needs.
pub const STACK_CHECK_SCHEMA: usize = 16 * 1024;

/// The stack that [`check_mapping`] needs.
pub const STACK_CHECK_MAPPING: usize = 24 * 1024;

/// The stack that [`check_instance`] needs.
pub const STACK_CHECK_INSTANCE: usize = 120 * 1024;

/// The stack that [`first_path`] needs.
pub const STACK_FIRST_PATH: usize = 20 * 1024;

/// The stack that [`path_chain`] needs.
pub const STACK_PATH_CHAIN: usize = 32 * 1024;

/// The stack that [`delta`] needs.
pub const STACK_DELTA: usize = 248 * 1024;

/// The stack that [`sigma`] needs.
pub const STACK_SIGMA: usize = 256 * 1024;

/// The stack that [`pi`] needs.
pub const STACK_PI: usize = 512 * 1024;

/// The stack that [`query`] needs.
pub const STACK_QUERY: usize = 672 * 1024;

/// The stack that [`compose`] needs.
pub const STACK_COMPOSE: usize = 40 * 1024;

/// The stack that each of the two checkers and the two turnings needs.
pub const STACK_MATCHINGS: usize = 392 * 1024;

/// The stack that each of [`add_row`] and [`withdraw_row`] needs.
pub const STACK_CHANGES: usize = 252 * 1024;

/// The result as bytes of its own: the call fills a tray that holds every
/// result, which is then cut to the result's length.
fn whole(
    most_bytes: usize,
    fill: impl FnOnce(&mut [u8]) -> Result<usize, Refusal>,
) -> Result<Vec<u8>, Refusal> {
    let mut tray = vec![0; most_bytes];
    let length = fill(&mut tray)?;
    tray.truncate(length);
    tray.shrink_to_fit();
    Ok(tray)
}
