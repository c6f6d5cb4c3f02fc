//! The instructions in front of bytes, and the bytes that these spell.
use play_meaning::Instruction;
use std::alloc::{AllocError, Global};
use story_code::{front, spell};

/// The instructions one behind the other in front of bytes.
fn instructions(alloc: Global, bytes: &[u8]) -> Result<Vec<Instruction>, AllocError> {
    let mut found = Vec::new(alloc);
    let mut rest = bytes;
    for _ in 0..bytes.len() {
        let Some(instruction) = front(rest) else {
            return Ok(found);
        };
        let spelled = spell(alloc, &[instruction])?;
        let Some((_, behind)) = rest.split_at_checked(spelled.len()) else {
            return Ok(found);
        };
        found.push(instruction)?;
        rest = behind;
    }
    Ok(found)
}

/// The instructions in front of bytes, and the digits of the bytes that they spell.
pub fn spelling_told(alloc: Global, bytes: &[u8]) -> Result<String, AllocError> {
    let found = instructions(alloc, bytes)?;
    let found = found.as_slice();
    let spelled = hex::encode(alloc, spell(alloc, found)?.as_slice())?;
    format!(in alloc; "{found:?}\t{spelled}")
}
