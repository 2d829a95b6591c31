//! Reads the push program's input from standard input and prints its text.

#![forbid(unsafe_code)]

use std::io::{Read, Result, Write};

fn main() -> Result<()> {
    let mut input = Vec::new();
    std::io::stdin().lock().read_to_end(&mut input)?;
    std::io::stdout().lock().write_all(&reference::push(&input))
}
