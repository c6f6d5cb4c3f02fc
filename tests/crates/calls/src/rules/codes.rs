//! Codes, each judged by what it is for and by what there is.
use crate::rules::unplayed::Unplayed;
use play_meaning::{Counts, Use};
use std::alloc::{AllocError, Global};
use story_code::{Sizes, Verified};
use story_format::Story;

/// As many kinds as the language has.
const KINDS: u16 = 100;

/// The standard actions.
const ACTIONS: u16 = 16;

/// The rulebooks that each story has.
const BOOKS: u16 = 8;

/// A count in two bytes.
fn small(count: usize) -> u16 {
    u16::try_from(count).unwrap_or(u16::MAX)
}

/// What there is beside so many strings and codes, as the code of number 0 is judged.
pub fn counts_of(
    alloc: Global,
    story: &Story,
    strings: usize,
    codes: usize,
) -> Result<Counts, AllocError> {
    let variables = story.variables(alloc)?;
    Ok(Counts {
        objects: small(story.object_count()),
        kinds: KINDS,
        flags: small(story.flag_count()),
        numbers: small(story.number_count()),
        variables: small(variables.len()),
        scenes: 0,
        strings: small(strings),
        codes: small(codes),
        actions: ACTIONS,
        books: BOOKS,
        own: 0,
        values: [0; 100],
    })
}

/// The code of this number, if it is sound.
pub fn sound(bytes: Vec<u8>, counts: Counts, own: usize, role: Use) -> Result<Verified, Unplayed> {
    let counts = Counts {
        own: small(own),
        ..counts
    };
    match Verified::new(bytes, Sizes { counts, role }) {
        Some(code) => Ok(code),
        None => Err(Unplayed::Unsound),
    }
}
