//! `sheet version`

use crate::arguments::Arguments;
use crate::failure::Failure;
use crate::output;

pub fn run(_: &Arguments, _: &[String]) -> Result<(), Failure> {
    output::print(concat!("sheet ", env!("CARGO_PKG_VERSION"), "\n"))
}
