//! Descriptions by their words.

use crate::meanings::scene::words;
use i7_conditions::{Found, Scope, description_of};
use play_meaning::tree::Description;
use std::alloc::{AllocError, Global};

/// A description as it is printed without its lists' names: the adjectives, the kind, what holds the objects.
pub fn printed(alloc: Global, those: &Description) -> Result<String, AllocError> {
    let mut line = String::new(alloc);
    for adjective in those.adjectives.as_slice() {
        line.push_str(format!(in alloc; "{adjective:?} ")?.as_str())?;
    }
    let kind = those.kind;
    match &those.held {
        None => format!(in alloc; "{line}{kind:?}"),
        Some(held) => format!(in alloc; "{line}{kind:?} {held:?}"),
    }
}

/// What words describe.
pub fn described(alloc: Global, scope: &Scope<'_>, text: &str) -> Result<String, AllocError> {
    let words = words(alloc, text)?;
    match description_of(alloc, scope, words.as_slice())? {
        Found::Read(those) => printed(alloc, &those),
        Found::TooMany => format!(in alloc; "too many"),
        Found::Unread => format!(in alloc; "unread"),
    }
}
