//! What a story says at first and to `look`, or the fault for which it is refused.
use standard_rules::HostTable;
use std::alloc::{AllocError, Global};
use story_format::load;
use story_player::Session;

/// What a session says at first and to `look`.
fn said(alloc: Global, mut session: Session) -> Result<String, AllocError> {
    let opening = hex::encode(alloc, session.opening())?;
    let reply = session.line(b"look");
    let reply = hex::encode(alloc, reply.text())?;
    format!(in alloc; "{opening}\t{reply}")
}

/// What the story of these bytes says, or why there is none, or no session of it.
pub fn told(alloc: Global, bytes: &[u8]) -> Result<String, AllocError> {
    let story = match load(alloc, bytes) {
        Ok(story) => story,
        Err(fault) => return format!(in alloc; "{fault}"),
    };
    match Session::start(alloc, story, HostTable::standard(alloc)?) {
        Ok(session) => said(alloc, session),
        Err(fault) => format!(in alloc; "{fault}"),
    }
}
