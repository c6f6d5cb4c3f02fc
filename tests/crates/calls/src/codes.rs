//! Says of each code of a file whether it is sound, 1 or 0: what is compared with a plain checker and timed. The word is the file, or
//! `-` for a code that is sound and one that isn't.
mod records;

use crate::asked::not_asked;
use records::record;
use std::alloc::{AllocError, Global};
use std::io::Write;
use std::{fs, io};
use story_code::verify;

/// A body that ends, and one that doesn't.
const SAMPLE: [u8; 58] = [
    2, 0, 0, 0, 0, 0, 0, 0, 0, 0, 0, 0, 0, 0, 0, 0, 0, 0, 0, 0, 0, 0, 0, 0, 0, 0, 0, 1, 0x37, //
    2, 0, 0, 0, 0, 0, 0, 0, 0, 0, 0, 0, 0, 0, 0, 0, 0, 0, 0, 0, 0, 0, 0, 0, 0, 0, 0, 1, 0x04,
];

/// A digit for each code.
fn verdicts(alloc: Global, bytes: &[u8]) -> Result<Vec<u8>, AllocError> {
    let mut digits = Vec::new(alloc);
    let mut rest = bytes;
    while let Some((sizes, code, after)) = record(rest) {
        digits.push(if verify(code, &sizes) { b'1' } else { b'0' })?;
        rest = after;
    }
    Ok(digits)
}

/// The digits for the codes of a file.
fn digits_of(rt: &HostRuntime, path: &str) -> io::Result<Vec<u8>> {
    if path == "-" {
        return Ok(verdicts(rt.alloc(), &SAMPLE)?);
    }
    let bytes = fs::read(rt, path)?;
    Ok(verdicts(rt.alloc(), bytes.as_slice())?)
}

/// Prints the digits for the codes of the file that the word names.
pub fn call(rt: &HostRuntime, words: &[String]) -> io::Result<()> {
    let [path] = words else {
        return Err(not_asked());
    };
    let digits = digits_of(rt, path.as_str())?;
    rt.stdout().write_all(digits.as_slice())
}
