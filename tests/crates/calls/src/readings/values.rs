//! What assertions on kinds of value say.
use crate::readings::names::{add_declared, add_name, add_names, add_pair};
use i7_sentences::{Assertion, Name};
use std::alloc::AllocError;

/// Adds a property, what has it, and its value.
fn add_value(
    out: &mut Vec<u8>,
    property: &Name,
    word: &[u8],
    owner: &Name,
    value: &Name,
) -> Result<(), AllocError> {
    add_pair(out, property, word, owner)?;
    out.push(b' ')?;
    add_name(out, value)
}

/// Adds what an assertion on kinds of value says, nothing of another.
pub fn add_values(out: &mut Vec<u8>, said: &Assertion) -> Result<(), AllocError> {
    match said {
        Assertion::ValueKind(name) => add_declared(out, b"kind of value", name),
        Assertion::Values { kind, values } => {
            add_declared(out, b"values of", kind)?;
            add_names(out, values)
        }
        Assertion::HasValue { kind, property } => add_pair(out, kind, b" has value", property),
        Assertion::UsuallyValue {
            property,
            kind,
            value,
        } => add_value(out, property, b" usually of", kind, value),
        Assertion::ValueOf {
            property,
            object,
            value,
        } => add_value(out, property, b" of", object, value),
        _ => Ok(()),
    }
}
