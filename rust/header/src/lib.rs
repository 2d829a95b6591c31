//! `include/migration.h` against the library.
//!
//! A C program is made from the header: it makes every call that the header
//! declares, each argument chosen by the name of its parameter, and compares what
//! comes back with the header's constants, by their names.
//!
//! - [`read`] takes the header apart;
//! - [`constants`] and [`arguments`] say what each of its names stands for;
//! - [`trials`] are the calls that are made, and [`program`] is the C program;
//! - [`model`] says what the program finds, with the reference in the library's
//!   place;
//! - [`changes`] are headers with a mistake, which the program must find.

#![forbid(unsafe_code)]
#![warn(missing_docs)]

pub mod arguments;
pub mod changes;
pub mod constants;
pub mod model;
pub mod program;
pub mod read;
pub mod sizes;
pub mod trials;
