//! An action that a sentence declares: its name, what it asks of its nouns, `light`, and `apart` out of world:
//! `action<weighing,it,with> carried touched light`, `action<scoring> apart`.
use crate::readings::texts::add_words;
use i7_sentences::ActionDeclaration;
use std::alloc::AllocError;
use world_meaning::{Needs, Slot};

/// What is asked of a noun, nothing where there is none.
fn slot_name(slot: Slot) -> &'static [u8] {
    match slot {
        Slot::Absent => b"",
        Slot::Visible => b" visible",
        Slot::Touched => b" touched",
        Slot::Carried => b" carried",
    }
}

/// Adds what an action asks for.
fn add_needs(out: &mut Vec<u8>, needs: &Needs) -> Result<(), AllocError> {
    out.extend_from_slice(slot_name(needs.noun))?;
    out.extend_from_slice(slot_name(needs.second))?;
    if needs.light {
        out.extend_from_slice(b" light")?;
    }
    if needs.out_of_world {
        out.extend_from_slice(b" apart")?;
    }
    Ok(())
}

/// Adds an action.
pub fn add_action(out: &mut Vec<u8>, action: &ActionDeclaration) -> Result<(), AllocError> {
    out.extend_from_slice(b"action")?;
    add_words(out, b'<', &action.name, b'>')?;
    add_needs(out, &action.needs)
}
