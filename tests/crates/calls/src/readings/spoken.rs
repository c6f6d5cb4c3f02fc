//! What a phrase says: `increase<the,score><2>`.
use crate::readings::texts::{add_pieces, add_words};
use i7_sentences::{Spoken, WordList};
use std::alloc::AllocError;
use world_meaning::TextBytes;

/// Adds a name and words.
fn add_one(out: &mut Vec<u8>, name: &[u8], words: &WordList) -> Result<(), AllocError> {
    out.extend_from_slice(name)?;
    add_words(out, b'<', words, b'>')
}

/// Adds a name and words twice.
fn add_two(
    out: &mut Vec<u8>,
    name: &[u8],
    first: &WordList,
    second: &WordList,
) -> Result<(), AllocError> {
    add_one(out, name, first)?;
    add_words(out, b'<', second, b'>')
}

/// Adds the end of the story, with what is said there.
fn add_end(out: &mut Vec<u8>, text: &Option<TextBytes>) -> Result<(), AllocError> {
    out.extend_from_slice(b"end")?;
    if let Some(text) = text {
        out.push(b'=')?;
        out.extend_from_slice(text.as_slice())?;
    }
    Ok(())
}

/// How an action is tried.
fn try_name(is_silent: bool) -> &'static [u8] {
    if is_silent { b"silently" } else { b"try" }
}

/// Adds what a phrase says.
pub fn add_spoken(out: &mut Vec<u8>, said: &Spoken) -> Result<(), AllocError> {
    match said {
        Spoken::Say { text, .. } => add_pieces(out, text.as_slice()),
        Spoken::Now(words) => add_one(out, b"now", words),
        Spoken::Move(words) => add_one(out, b"move", words),
        Spoken::Increase { value, amount } => add_two(out, b"increase", value, amount),
        Spoken::Decrease { value, amount } => add_two(out, b"decrease", value, amount),
        Spoken::Try { is_silent, action } => add_one(out, try_name(*is_silent), action),
        Spoken::Follow(book) => add_one(out, b"follow", book),
        Spoken::RuleSucceeds => out.extend_from_slice(b"succeeds"),
        Spoken::RuleFails => out.extend_from_slice(b"fails"),
        Spoken::MakeNoDecision => out.extend_from_slice(b"none"),
        Spoken::ContinueAction => out.extend_from_slice(b"continue"),
        Spoken::StopAction => out.extend_from_slice(b"stop"),
        Spoken::EndStory(text) => add_end(out, text),
        Spoken::If(condition) => add_one(out, b"if", condition),
        Spoken::OtherwiseIf(condition) => add_one(out, b"elsif", condition),
        Spoken::Otherwise => out.extend_from_slice(b"else"),
        Spoken::Repeat { name, through } => add_two(out, b"repeat", name, through),
    }
}
