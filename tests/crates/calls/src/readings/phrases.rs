//! The phrases of a rule's body, its head being two words and a colon or a comma: of each its line, its indent, how many tokens it
//! has, and its mark; then the code and the line with which the body is refused, or that it is fine: `2/1/2; 3/1/2. fine`.
use crate::readings::tokens::fault_told;
use i7_lexer::{PackedToken, lex};
use i7_sentences::{PhraseLine, PhraseMark, body_fault, phrases_of, reserved_line};
use std::alloc::{AllocError, Global};

/// A mark as it is written.
fn mark_name(mark: PhraseMark) -> &'static str {
    match mark {
        PhraseMark::Semicolon => ";",
        PhraseMark::Stop => ".",
        PhraseMark::Colon => ":",
        PhraseMark::Comma => ",",
        PhraseMark::Nothing => "",
    }
}

/// Adds a phrase.
fn add_phrase(alloc: Global, out: &mut Vec<u8>, phrase: &PhraseLine<'_>) -> Result<(), AllocError> {
    let line = phrase.line;
    let indent = phrase.indent;
    let count = phrase.tokens.len();
    let mark = mark_name(phrase.mark);
    let told = format!(in alloc; "{line}/{indent}/{count}{mark} ")?;
    out.extend_from_slice(told.as_bytes())
}

/// The code and the line with which a body is refused, or that it is fine.
fn verdict(alloc: Global, line: u32, phrases: &[PhraseLine<'_>]) -> Result<String, AllocError> {
    if let Some(unread) = body_fault(alloc, line, phrases)? {
        return format!(in alloc; "C5 {unread}");
    }
    if let Some(reserved) = reserved_line(alloc, phrases)? {
        return format!(in alloc; "C6 {reserved}");
    }
    format!(in alloc; "fine")
}

/// The line of a rule, and its body.
fn body_of(tokens: &[PackedToken]) -> (u32, &[PackedToken]) {
    match tokens {
        [first, _, _, body @ ..] => (first.line(), body),
        _ => (1, &[]),
    }
}

/// The phrases of the body behind the head of a rule, and what becomes of it.
fn body_told(alloc: Global, tokens: &[PackedToken]) -> Result<Vec<u8>, AllocError> {
    let (line, body) = body_of(tokens);
    let phrases = phrases_of(alloc, body)?;
    let mut out = Vec::new(alloc);
    for phrase in phrases.as_slice() {
        add_phrase(alloc, &mut out, phrase)?;
    }
    let said = verdict(alloc, line, phrases.as_slice())?;
    out.extend_from_slice(said.as_bytes())?;
    Ok(out)
}

/// The phrases of a rule, and what becomes of it.
pub fn phrases_told(alloc: Global, source: &[u8]) -> Result<Vec<u8>, AllocError> {
    match lex(alloc, source) {
        Ok(lexed) => body_told(alloc, lexed.tokens()),
        Err(fault) => fault_told(alloc, fault),
    }
}
