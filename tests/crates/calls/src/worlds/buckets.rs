//! What an index tells of rules.
use crate::joined::add;
use crate::worlds::answer::{code_told, listed};
use crate::worlds::words::Words;
use play_meaning::ActNo;
use rule_index::Index;
use std::alloc::{AllocError, Global};
use world_store::World;

/// The rules of a rulebook that admit an action, a noun and a room, by number and in order; a word that names no object is none.
pub fn bucket_told(
    alloc: Global,
    world: &World,
    words: &mut Words<'_>,
) -> Result<Option<String>, AllocError> {
    let (Some(book), Some(action)) = (words.string(), words.place()) else {
        return Ok(None);
    };
    let (noun, room) = (words.object(), words.object());
    if !words.are_read() {
        return Ok(None);
    }
    let index = Index::build(alloc, world.shared_story())?;
    let mut line = String::new(alloc);
    for rule in index.bucket(book, ActNo::new(action), noun, room) {
        add(&mut line, ", ", format!(in alloc; "{rule}")?.as_str())?;
    }
    Ok(Some(listed(alloc, line)?))
}

/// The place of a rule in its rulebook, if it is listed in one.
pub fn place_told(
    alloc: Global,
    world: &World,
    words: &mut Words<'_>,
) -> Result<Option<String>, AllocError> {
    let Some(rule) = words.string() else {
        return Ok(None);
    };
    if !words.are_read() {
        return Ok(None);
    }
    let index = Index::build(alloc, world.shared_story())?;
    let place = index
        .place(rule)
        .and_then(|place| u16::try_from(place).ok());
    Ok(Some(code_told(alloc, place)?))
}
