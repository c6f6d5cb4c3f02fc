//! Names as they are printed, between angles, and the words and numbers beside them.
use i7_sentences::{Name, Names};
use std::alloc::{AllocError, Global};

/// Adds a word and a space.
pub fn add(out: &mut Vec<u8>, word: &[u8]) -> Result<(), AllocError> {
    out.extend_from_slice(word)?;
    out.push(b' ')?;
    Ok(())
}

/// Adds a name.
pub fn add_name(out: &mut Vec<u8>, name: &Name) -> Result<(), AllocError> {
    out.push(b'<')?;
    out.extend_from_slice(name.text.as_slice())?;
    out.push(b'>')?;
    Ok(())
}

/// Adds names.
pub fn add_names(out: &mut Vec<u8>, names: &Names) -> Result<(), AllocError> {
    for name in names.as_slice() {
        add_name(out, name)?;
    }
    Ok(())
}

/// Adds a word in front of a name.
pub fn add_declared(out: &mut Vec<u8>, word: &[u8], name: &Name) -> Result<(), AllocError> {
    add(out, word)?;
    add_name(out, name)
}

/// Adds a word between two names.
pub fn add_pair(
    out: &mut Vec<u8>,
    first: &Name,
    word: &[u8],
    second: &Name,
) -> Result<(), AllocError> {
    add_name(out, first)?;
    add_declared(out, word, second)
}

/// Adds a number behind a space.
pub fn add_number(alloc: Global, out: &mut Vec<u8>, number: i32) -> Result<(), AllocError> {
    let told = format!(in alloc; " {number}")?;
    out.extend_from_slice(told.as_bytes())
}
