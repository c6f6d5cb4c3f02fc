//! The tokens of a source, each with `P`, or `L` and its indent, where it begins a paragraph or a line, with `A` where its words go
//! over a line break, then its line and what it is, texts in quotes: `P1:The|1:Hall|L0 2:"Bare."|`.
use i7_lexer::{Lexed, PackedToken, Start, TokenKind, lex};
use std::alloc::{AllocError, Global};
use world_meaning::Fault;

/// Adds what a token begins.
fn add_start(alloc: Global, out: &mut Vec<u8>, start: Start) -> Result<(), AllocError> {
    match start {
        Start::Paragraph => out.extend_from_slice(b"P"),
        Start::Line { indent } => {
            let told = format!(in alloc; "L{indent} ")?;
            out.extend_from_slice(told.as_bytes())
        }
        Start::Within => Ok(()),
        Start::Across => out.extend_from_slice(b"A"),
    }
}

/// Adds what a token is.
fn add_kind(out: &mut Vec<u8>, kind: &TokenKind) -> Result<(), AllocError> {
    match kind {
        TokenKind::Text(bytes) => {
            out.push(b'"')?;
            out.extend_from_slice(bytes.as_slice())?;
            out.push(b'"')?;
        }
        TokenKind::Word(bytes) => out.extend_from_slice(bytes.as_slice())?,
        TokenKind::Mark(byte) => out.push(*byte)?,
    }
    Ok(())
}

/// Adds a token.
fn add_token(alloc: Global, out: &mut Vec<u8>, token: &PackedToken) -> Result<(), AllocError> {
    add_start(alloc, out, token.start())?;
    let line = token.line();
    let told = format!(in alloc; "{line}:")?;
    out.extend_from_slice(told.as_bytes())?;
    add_kind(out, &token.kind())?;
    out.push(b'|')?;
    Ok(())
}

/// The tokens one behind the other.
fn all(alloc: Global, lexed: &Lexed) -> Result<Vec<u8>, AllocError> {
    let mut out = Vec::new(alloc);
    for token in lexed.tokens() {
        add_token(alloc, &mut out, token)?;
    }
    Ok(out)
}

/// A refusal: `2: C3 Unclosed`.
pub fn fault_told(alloc: Global, fault: Fault) -> Result<Vec<u8>, AllocError> {
    let told = format!(in alloc; "{fault}")?;
    Vec::from_slice(alloc, told.as_bytes())
}

/// The tokens of a source, or its refusal.
pub fn tokens_told(alloc: Global, source: &[u8]) -> Result<Vec<u8>, AllocError> {
    match lex(alloc, source) {
        Ok(lexed) => all(alloc, &lexed),
        Err(fault) => fault_told(alloc, fault),
    }
}
