//! Answers as they are printed, a line each.
use std::alloc::AllocError;
use std::io::{self, Write};

/// Prints what is told of each part of a text, behind each of which its end stands.
pub fn print_each<F: Fn(&str) -> Result<String, AllocError>>(
    rt: &HostRuntime,
    text: &str,
    end: char,
    told: F,
) -> io::Result<()> {
    let mut out = rt.stdout();
    for part in text.split_terminator(end) {
        let line = told(part)?;
        writeln!(out, "{line}")?;
    }
    Ok(())
}
