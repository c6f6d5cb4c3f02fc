//! What `try` and `follow` say by their words.

use crate::meanings::scene::words;
use i7_actions::{Action, NounCount, Tried, book_of, standard_actions, tried_of};
use i7_conditions::{Found, Scope};
use std::alloc::{AllocError, Global};
use world_meaning::{Listed, TextBytes};

/// An author's action.
fn action(alloc: Global, name: &str, nouns: NounCount) -> Result<Action, AllocError> {
    let name = Listed::new(words(alloc, name)?);
    Ok(Action { name, nouns })
}

/// The standard actions, and six of an author.
pub fn actions(alloc: Global) -> Result<Vec<Action>, AllocError> {
    let mut all = standard_actions(alloc)?;
    all.push(action(alloc, "giving", NounCount::Two)?)?;
    all.push(action(alloc, "asking it twice", NounCount::One)?)?;
    all.push(action(alloc, "taking it off", NounCount::One)?)?;
    all.push(action(alloc, "Taking", NounCount::One)?)?;
    all.push(action(alloc, "logging", NounCount::Zero)?)?;
    all.push(action(alloc, "logging in", NounCount::One)?)?;
    Ok(all)
}

/// What is tried: the action's number, then the nouns.
fn printed(alloc: Global, tried: &Tried) -> Result<String, AllocError> {
    let number = tried.action.get();
    let noun = &tried.noun;
    let second = &tried.second;
    format!(in alloc; "{number} {noun:?} {second:?}")
}

/// What words try.
pub fn tried(alloc: Global, scope: &Scope<'_>, text: &str) -> Result<String, AllocError> {
    let actions = actions(alloc)?;
    if actions.len() > 255 {
        return format!(in alloc; "too many actions");
    }
    let words = words(alloc, text)?;
    match tried_of(alloc, scope, actions.as_slice(), words.as_slice())? {
        Found::Read(tried) => printed(alloc, &tried),
        Found::TooMany => format!(in alloc; "too many"),
        Found::Unread => format!(in alloc; "unread"),
    }
}

/// The number of the rulebook that words name, among two of an author and those of two scenes.
pub fn followed(alloc: Global, text: &str) -> Result<String, AllocError> {
    let rulebooks = [
        TextBytes::copied(alloc, b"cleanup")?,
        TextBytes::copied(alloc, b"tidying up")?,
    ];
    let actions = actions(alloc)?;
    let words = words(alloc, text)?;
    let book = book_of(alloc, actions.as_slice(), &rulebooks, 2, words.as_slice())?;
    format!(in alloc; "{book:?}")
}
