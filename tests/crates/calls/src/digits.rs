//! Bytes that are told by hexadecimal digits.
use std::alloc::{AllocError, Global};

/// What is told of the bytes of digits, if they are digits.
pub fn bytes_told<F: FnOnce(&[u8]) -> Result<String, AllocError> + Drop>(
    alloc: Global,
    digits: &str,
    told: F,
) -> Result<String, AllocError> {
    match hex::decode(alloc, digits.as_bytes()).ok() {
        Some(bytes) => told(bytes.as_slice()),
        None => format!(in alloc; "no digits"),
    }
}
