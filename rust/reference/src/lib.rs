//! A naive reference implementation of document 01, "Delta, Sigma and Pi for
//! inspection run records", and of requests C-11, C-12, C-14, C-15, C-16 and C-17 of
//! document 02, "Which rules made these paths equal", "Twelve o'clock is 720", "The
//! first path of a class", "The dig sheet", "Rows that come and go" and "Two hops or
//! one".
//!
//! It is written from the definitions, clarity before speed: equal paths are
//! found by searching chains of steps, and the first of them stands for all;
//! shortest chains are found by searching level by level, evenness is tested over
//! all paths, and the rows of Pi are listed as families; after a change of the run
//! all of Sigma is made anew.  It serves as the other implementation against which
//! results are compared.
//!
//! The calls take sheets as byte slices, in the order in which the papers
//! judge them, and yield whole sheets; [`into_tray`], [`into_tray_or_none`] and
//! [`into_trays`] write them into lent trays.  The decoded types and their encoders
//! are gathered in [`plain`].

#![forbid(unsafe_code)]
#![warn(missing_docs)]

pub mod bits;
pub mod calls;
pub mod chains;
pub mod classes;
pub mod composed;
pub mod evenness;
pub mod families;
pub mod instance;
pub mod mapping;
pub mod matching;
pub mod migrate;
pub mod paths;
pub mod program;
pub mod refusal;
pub mod rows;
pub mod schema;

pub use calls::{
    add_row, check_instance, check_mapping, check_pushed, check_raw, check_schema, compose, delta,
    first_path, into_tray, into_tray_or_none, into_trays, path_chain, pi, pushed_to_raw, query,
    raw_to_pushed, sigma, withdraw_row, ChangedSheets,
};
pub use program::{dig, push};
pub use refusal::Refusal;

/// The decoded sheets as plain types with public fields.
///
/// Schemas, paths, mappings, instances and matchings each have a `to_sheet`
/// method that encodes them, whether or not the sheet would be accepted, and an
/// `accept` function that decodes and judges a sheet.  A row to be added has the
/// `to_sheet` method; it is judged with the run, by [`crate::rows::added`].  A chain
/// is never lent: it has the `to_sheet` method alone.
pub mod plain {
    pub use crate::chains::{Chain, Step};
    pub use crate::instance::{Instance, RANGES};
    pub use crate::mapping::Mapping;
    pub use crate::matching::Matching;
    pub use crate::paths::Path;
    pub use crate::rows::Row;
    pub use crate::schema::{Attribute, Edge, Equation, Schema};
}
