//! The sentences of a source.
use crate::rules::unplayed::Unplayed;
use i7_lexer::lex;
use i7_sentences::{Sentence, read};
use std::alloc::Global;

/// The sentences of a source.
pub fn sentences_in(alloc: Global, source: &str) -> Result<Vec<Sentence>, Unplayed> {
    let lexed = lex(alloc, source.as_bytes())?;
    Ok(read(alloc, &lexed)?)
}
