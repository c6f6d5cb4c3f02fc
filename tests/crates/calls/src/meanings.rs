//! Reads rows of tests, a line each, and prints what the words of each mean. The word is the file of the rows.
mod actions;
mod conditions;
mod descriptions;
mod nesting;
mod numbers;
mod objects;
mod patterns;
mod phrases;
mod row;
mod scene;
mod setting;
mod texts;
mod told;

use crate::asked::text_named;
use crate::printing::print_each;
use std::io;
use told::told;

/// Prints what the words of each row of the file mean.
pub fn call(rt: &HostRuntime, words: &[String]) -> io::Result<()> {
    let rows = text_named(rt, words)?;
    print_each(rt, rows.as_str(), '\n', |row| told(rt.alloc(), row))
}
