//! Codes with what they are judged by, one behind the other: a byte for the use (0 a test, 1 a description, 2 a body), one for
//! the loops around a test, eleven counts in two bytes each, a byte for how many kinds of value there are and one for how many values each has, the
//! code's length in three, and the code.
use play_meaning::{Counts, Use};
use story_code::Sizes;

/// A number of two bytes, and what stands behind it.
fn word(bytes: &[u8]) -> Option<(u16, &[u8])> {
    let [high, low, rest @ ..] = bytes else {
        return None;
    };
    Some((u16::from_be_bytes([*high, *low]), rest))
}

/// How many values kinds of value have, as many as are told of, and what stands behind them.
fn values(bytes: &[u8]) -> Option<([u8; 100], &[u8])> {
    let [count, rest @ ..] = bytes else {
        return None;
    };
    let count = usize::from(*count);
    if rest.len() < count || count > 100 {
        return None;
    }
    let (told, rest) = rest.split_at(count);
    let mut values = [0; 100];
    for (value, one) in values.iter_mut().zip(told) {
        *value = *one;
    }
    Some((values, rest))
}

/// The counts, and what stands behind them.
fn counts(bytes: &[u8]) -> Option<(Counts, &[u8])> {
    let (objects, rest) = word(bytes)?;
    let (kinds, rest) = word(rest)?;
    let (flags, rest) = word(rest)?;
    let (numbers, rest) = word(rest)?;
    let (variables, rest) = word(rest)?;
    let (scenes, rest) = word(rest)?;
    let (strings, rest) = word(rest)?;
    let (codes, rest) = word(rest)?;
    let (actions, rest) = word(rest)?;
    let (books, rest) = word(rest)?;
    let (own, rest) = word(rest)?;
    let (values, rest) = values(rest)?;
    let counts = Counts {
        objects,
        kinds,
        flags,
        numbers,
        variables,
        scenes,
        strings,
        codes,
        actions,
        books,
        own,
        values,
    };
    Some((counts, rest))
}

/// The use of a code.
fn role(number: u8, loops: u8) -> Use {
    match number {
        0 => Use::Test(loops),
        1 => Use::Describing,
        _ => Use::Body,
    }
}

/// The code behind its length, and what stands behind it.
fn code(bytes: &[u8]) -> Option<(&[u8], &[u8])> {
    let [high, middle, low, rest @ ..] = bytes else {
        return None;
    };
    let length = u32::from_be_bytes([0, *high, *middle, *low]) as usize;
    if rest.len() < length {
        return None;
    }
    Some(rest.split_at(length))
}

/// What the first code is judged by, the code, and what stands behind it.
pub fn record(bytes: &[u8]) -> Option<(Sizes, &[u8], &[u8])> {
    let [number, loops, rest @ ..] = bytes else {
        return None;
    };
    let role = role(*number, *loops);
    let (counts, rest) = counts(rest)?;
    let (code, rest) = code(rest)?;
    Some((Sizes { counts, role }, code, rest))
}
