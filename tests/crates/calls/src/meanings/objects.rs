//! Objects by their words.

use crate::meanings::scene::words;
use i7_conditions::{Scope, object_of};
use std::alloc::{AllocError, Global};

/// The object that words name.
pub fn object(alloc: Global, scope: &Scope<'_>, text: &str) -> Result<String, AllocError> {
    let words = words(alloc, text)?;
    let found = object_of(alloc, scope, words.as_slice())?;
    format!(in alloc; "{found:?}")
}
