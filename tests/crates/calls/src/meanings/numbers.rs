//! Numbers by their words.

use crate::meanings::scene::words;
use i7_conditions::{Found, Scope, number_of};
use play_meaning::tree::{Joined, Number};
use std::alloc::{AllocError, Global};

/// What is joined to a number, its operator in front.
fn joined(alloc: Global, joined: &Joined) -> Result<String, AllocError> {
    let operator = joined.operator;
    let term = &joined.term;
    format!(in alloc; " {operator:?} {term:?}")
}

/// A number as it is printed, each operator in front of its part.
pub fn printed(alloc: Global, number: &Number) -> Result<String, AllocError> {
    let first = &number.first;
    let mut line = format!(in alloc; "{first:?}")?;
    for part in number.rest.iter() {
        line.push_str(joined(alloc, part)?.as_str())?;
    }
    Ok(line)
}

/// The number that words are.
pub fn number(alloc: Global, scope: &Scope<'_>, text: &str) -> Result<String, AllocError> {
    let words = words(alloc, text)?;
    match number_of(alloc, scope, words.as_slice())? {
        Found::Read(number) => printed(alloc, &number),
        Found::TooMany => format!(in alloc; "too many"),
        Found::Unread => format!(in alloc; "unread"),
    }
}
