//! What words ask for, and the files that they name.
use std::io::ErrorKind;
use std::{fs, io};

/// The error of words, or of a file, that ask for nothing.
pub fn not_asked() -> io::Error {
    io::Error::from(ErrorKind::InvalidInput)
}

/// The text of the file that the only word names.
pub fn text_named(rt: &HostRuntime, words: &[String]) -> io::Result<String> {
    match words {
        [path] => fs::read_to_string(rt, path.as_str()),
        _ => Err(not_asked()),
    }
}
