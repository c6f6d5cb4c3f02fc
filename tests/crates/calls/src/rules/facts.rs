//! What is asked about a body that was done, as `said`, `ended`, `variable NUMBER`, `holder OBJECT`, `number PROPERTY OBJECT` or
//! `flag PROPERTY OBJECT`.
use crate::rules::runs::Done;
use std::alloc::{AllocError, Global};
use world_meaning::{ObjNo, Place};

/// What is asked: what the body said, the text with which the story ended, or what is true of the world that it left behind,
/// of objects by their numbers.
#[derive(Clone, Copy)]
enum Fact {
    Said,
    Ended,
    Variable(u8),
    Holder(u16),
    Number(u8, u16),
    Flag(u8, u16),
}

/// A property and an object, by their numbers.
fn property_of(numbers: &str) -> Option<(u8, u16)> {
    let (property, number) = numbers.split_once(' ')?;
    Some((property.parse::<u8>().ok()?, number.parse::<u16>().ok()?))
}

/// What is asked by a word and these numbers.
fn numbered(word: &str, numbers: &str) -> Option<Fact> {
    match word {
        "variable" => Some(Fact::Variable(numbers.parse::<u8>().ok()?)),
        "holder" => Some(Fact::Holder(numbers.parse::<u16>().ok()?)),
        "number" => {
            let (property, of) = property_of(numbers)?;
            Some(Fact::Number(property, of))
        }
        "flag" => {
            let (property, of) = property_of(numbers)?;
            Some(Fact::Flag(property, of))
        }
        _ => None,
    }
}

/// What is asked by these words.
fn asked_by(words: &str) -> Option<Fact> {
    match words {
        "said" => Some(Fact::Said),
        "ended" => Some(Fact::Ended),
        _ => {
            let (word, numbers) = words.split_once(' ')?;
            numbered(word, numbers)
        }
    }
}

/// What is told of where a thing is.
fn place_told(alloc: Global, place: Option<Place>) -> Result<String, AllocError> {
    match place {
        Some(place) => format!(in alloc; "{:?} {}", place.relation, place.holder.get()),
        None => format!(in alloc; "nowhere"),
    }
}

/// What is told of a body that was done, where this is asked.
pub fn fact_told(alloc: Global, done: &Done, words: &str) -> Result<String, AllocError> {
    let world = done.stage.world();
    match asked_by(words) {
        Some(Fact::Said) => format!(in alloc; "{:?}", done.text.as_slice()),
        Some(Fact::Ended) => format!(in alloc; "{:?}", world.ended()),
        Some(Fact::Variable(variable)) => format!(in alloc; "{}", world.variable(variable)),
        Some(Fact::Holder(of)) => place_told(alloc, world.holder(ObjNo::new(of))),
        Some(Fact::Number(property, of)) => format!(in alloc;
            "{}",
            world.number(ObjNo::new(of), property)
        ),
        Some(Fact::Flag(property, of)) => format!(in alloc;
            "{}",
            world.flag(ObjNo::new(of), property)
        ),
        None => format!(in alloc; "unknown"),
    }
}
