//! Calls to try, made by a generator with fixed seeds, and what the reference
//! answers to them.
//!
//! - [`schemas`], [`instances`], [`mappings`], [`even`] make sheets that are
//!   accepted, [`world`] sets of them that fit together, [`digs`] those of a query,
//!   [`composable`] mappings one behind the other, [`questions`] two paths of a schema
//!   in which many are equal;
//! - [`damage`] makes one sheet of such a set one that is sent back;
//! - [`papers`], [`full`], [`limits`], [`first_paths`], [`chains`], [`queries`],
//!   [`query_refusals`], [`compositions`], [`composition_refusals`], [`puzzles`],
//!   [`stream`] are the cases, [`record`] the vector file and [`report`] their count by
//!   outcome;
//! - [`change_limits`], [`change_faults`], [`change_refusals`] and [`changes`] are those of
//!   the calls that change a run, in [`trays`], with [`rows`] that come and go;
//! - [`path_questions`] are the stored ones about two paths, with their answers;
//! - [`rules`] makes sheets of a puzzle, [`kinds`] has puzzles of six kinds and any
//!   size with their solutions, which [`modular`] finds for some, and [`hard`] the
//!   cases that are hardest for Pi, with what they may take.

#![forbid(unsafe_code)]
#![warn(missing_docs)]

pub mod answer;
pub mod base;
pub mod build;
pub mod call;
pub mod chains;
pub mod change_faults;
pub mod change_limits;
pub mod change_refusals;
pub mod changes;
pub mod composable;
pub mod composition_refusals;
pub mod compositions;
pub mod damage;
pub mod digs;
pub mod even;
pub mod first_paths;
pub mod full;
pub mod hard;
pub mod instances;
pub mod kinds;
pub mod limits;
pub mod mappings;
pub mod modular;
pub mod papers;
pub mod path_questions;
pub mod puzzles;
pub mod queries;
pub mod query_refusals;
pub mod questions;
pub mod random;
pub mod record;
pub mod report;
pub mod rows;
pub mod rules;
pub mod schemas;
pub mod stream;
pub mod trays;
pub mod world;
