//! What assertions say, in words: `<Garden> lies north of <Hall>`.
use crate::readings::actions::add_action;
use crate::readings::names::{add, add_declared, add_name, add_names};
use crate::readings::plans::add_plan;
use crate::readings::rules::{add_listing, add_rule, add_scene_change};
use crate::readings::texts::{add_printed, add_words};
use i7_sentences::{Assertion, Being, Name, Side, Understanding, Way};
use std::alloc::{AllocError, Global};
use world_meaning::Rel;

/// Adds a side of a room.
fn add_side(out: &mut Vec<u8>, side: &Side) -> Result<(), AllocError> {
    add_declared(out, side.direction.name(), &side.room)
}

/// Adds a door with its two sides.
fn add_door(out: &mut Vec<u8>, door: &Name, first: &Side, second: &Side) -> Result<(), AllocError> {
    add_declared(out, b"door", door)?;
    add_side(out, first)?;
    add_side(out, second)
}

/// Adds where a room lies.
fn add_way(out: &mut Vec<u8>, way: &Way) -> Result<(), AllocError> {
    add_name(out, &way.subject)?;
    add(out, b" lies")?;
    add(out, way.direction.name())?;
    add_declared(out, b"of", &way.room)
}

/// How a holder holds.
fn relation_name(relation: Rel) -> &'static [u8] {
    match relation {
        Rel::In => b" in",
        Rel::On => b" on",
        Rel::Carried => b" carried by",
        Rel::Worn => b" worn by",
        Rel::Part => b" part of",
    }
}

/// Adds what objects are.
fn add_being(out: &mut Vec<u8>, being: &Being) -> Result<(), AllocError> {
    add_names(out, &being.subjects)?;
    add(out, b" are")?;
    out.extend_from_slice(being.what.as_slice())?;
    match &being.place {
        Some(place) => add_declared(out, relation_name(place.relation), &place.name),
        None => Ok(()),
    }
}

/// Adds what texts mean: `means<ball>|orb||globe|`.
fn add_understanding(out: &mut Vec<u8>, understanding: &Understanding) -> Result<(), AllocError> {
    out.extend_from_slice(b"means")?;
    add_words(out, b'<', &understanding.meaning, b'>')?;
    for text in understanding.texts.as_slice() {
        add_printed(out, text.as_slice())?;
    }
    Ok(())
}

/// Adds what an assertion says.
pub fn add_said(alloc: Global, out: &mut Vec<u8>, said: &Assertion) -> Result<(), AllocError> {
    match said {
        Assertion::Aside => out.extend_from_slice(b"aside"),
        Assertion::Description(text) => {
            add(out, b"text")?;
            out.extend_from_slice(text.as_slice())
        }
        Assertion::DescriptionOf { object, text } => {
            add_declared(out, b"text of", object)?;
            out.extend_from_slice(text.as_slice())
        }
        Assertion::Way(way) => add_way(out, way),
        Assertion::Door {
            door,
            first,
            second,
        } => add_door(out, door, first, second),
        Assertion::Holds {
            holder,
            relation,
            things,
        } => {
            add_names(out, things)?;
            add_declared(out, relation_name(*relation), holder)
        }
        Assertion::Are(being) => add_being(out, being),
        Assertion::Rule(rule) => add_rule(alloc, out, rule),
        Assertion::Listing(listing) => add_listing(out, listing),
        Assertion::SceneChange(change) => add_scene_change(out, change),
        Assertion::Understand(understanding) => add_understanding(out, understanding),
        Assertion::Action(action) => add_action(out, action),
        _ => add_plan(alloc, out, said),
    }
}
