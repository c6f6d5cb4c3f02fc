//! Lists as they are printed.
use std::alloc::AllocError;

/// Adds one more to what is listed, and what stands between them.
pub fn add(line: &mut String, between: &str, told: &str) -> Result<(), AllocError> {
    if !line.is_empty() {
        line.push_str(between)?;
    }
    line.push_str(told)
}
