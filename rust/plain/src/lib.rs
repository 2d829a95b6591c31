//! Sigma and the check of instances in plain, fast Rust, with all tests of
//! document 01 in its order.  The proved library is measured against it.

#![forbid(unsafe_code)]
#![warn(missing_docs)]

mod bits;
mod instance;
mod mapping;
mod paths;
mod push;
mod schema;

use instance::Instance;
use mapping::{Mapping, Side};
use schema::Schema;

/// A refusal: the number and the sheet's place.
#[derive(Debug, Clone, Copy, PartialEq, Eq)]
pub struct Refusal {
    /// 1 to 17.
    pub number: u8,
    /// From 1; 0 for 12 to 16.
    pub place: u8,
}

/// What judging one sheet yields: a value, or the number that applies.
type Judged<T> = Result<T, u8>;

fn at<T>(place: u8, judged: Judged<T>) -> Result<T, Refusal> {
    judged.map_err(|number| Refusal { number, place })
}

/// Checks an instance sheet over a schema.
pub fn check_instance(s: &[u8], i: &[u8]) -> Result<(), Refusal> {
    let schema = at(1, Schema::read(s))?;
    at(2, Instance::read(&schema, i))?;
    Ok(())
}

/// Sigma of an instance of S along an even mapping, into a tray: the result's
/// byte length.
pub fn sigma(s: &[u8], t: &[u8], f: &[u8], i: &[u8], tray: &mut [u8]) -> Result<usize, Refusal> {
    let s = Side::of(at(1, Schema::read(s))?);
    let t = Side::of(at(2, Schema::read(t))?);
    let f = at(3, Mapping::read(&s, &t, f))?;
    let i = at(4, Instance::read(&s.schema, i))?;
    at(0, push::push(&s, &t, &f, &i, tray))
}
