//! What assertions on kinds, properties, variables, rulebooks, scenes and numbers say.
use crate::readings::names::{add, add_declared, add_name, add_number, add_pair};
use crate::readings::values::add_values;
use i7_sentences::{Assertion, Name};
use std::alloc::{AllocError, Global};

/// Adds a property with its second name, if it has one.
fn add_either(
    out: &mut Vec<u8>,
    kind: &Name,
    first: &Name,
    second: &Option<Name>,
) -> Result<(), AllocError> {
    add_pair(out, kind, b" can be", first)?;
    match second {
        Some(second) => add_declared(out, b" or", second),
        None => Ok(()),
    }
}

/// The word in front of a scene.
fn scene_name(is_recurring: bool) -> &'static [u8] {
    if is_recurring { b"recurring" } else { b"scene" }
}

/// Adds what an assertion of a number or on kinds of value says, nothing of another.
fn add_numbered(alloc: Global, out: &mut Vec<u8>, said: &Assertion) -> Result<(), AllocError> {
    match said {
        Assertion::NumberOf {
            property,
            object,
            number,
        } => {
            add_pair(out, property, b" of", object)?;
            add_number(alloc, out, *number)
        }
        Assertion::VariableIs { variable, number } => {
            add_name(out, variable)?;
            add_number(alloc, out, *number)
        }
        Assertion::UsuallyNumber {
            property,
            kind,
            number,
        } => {
            add_pair(out, property, b" usually of", kind)?;
            add_number(alloc, out, *number)
        }
        _ => add_values(out, said),
    }
}

/// Adds what an assertion on kinds, properties, variables, rulebooks, scenes, numbers or kinds of value says, nothing of another.
pub fn add_plan(alloc: Global, out: &mut Vec<u8>, said: &Assertion) -> Result<(), AllocError> {
    match said {
        Assertion::Rulebook(name) => add_declared(out, b"rulebook", name),
        Assertion::Scene { name, is_recurring } => {
            add_declared(out, scene_name(*is_recurring), name)
        }
        Assertion::KindOfKind { kind, parent } => add_pair(out, kind, b" a kind of", parent),
        Assertion::EitherOr {
            kind,
            first,
            second,
        } => add_either(out, kind, first, second),
        Assertion::NumberProperty { kind, property } => add_pair(out, kind, b" has", property),
        Assertion::Usually { kind, adjectives } => {
            add_name(out, kind)?;
            add(out, b" usually")?;
            out.extend_from_slice(adjectives.as_slice())
        }
        Assertion::Variable(name) => add_declared(out, b"variable", name),
        _ => add_numbered(alloc, out, said),
    }
}
