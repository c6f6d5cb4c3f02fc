//! The sentences of a source, a line each: where it begins, and what it says: `1: <Garden> lies north of <Hall>`.
use crate::readings::assertions::add_said;
use crate::readings::tokens::fault_told;
use i7_lexer::{Lexed, lex};
use i7_sentences::{Sentence, read};
use std::alloc::{AllocError, Global};

/// Adds a sentence.
fn add_sentence(alloc: Global, out: &mut Vec<u8>, sentence: &Sentence) -> Result<(), AllocError> {
    if !out.is_empty() {
        out.push(b'\n')?;
    }
    let line = sentence.line;
    let place = format!(in alloc; "{line}: ")?;
    out.extend_from_slice(place.as_bytes())?;
    add_said(alloc, out, &sentence.said)
}

/// Sentences one behind the other.
fn all(alloc: Global, sentences: &[Sentence]) -> Result<Vec<u8>, AllocError> {
    let mut out = Vec::new(alloc);
    for sentence in sentences {
        add_sentence(alloc, &mut out, sentence)?;
    }
    Ok(out)
}

/// What tokens say, or their refusal.
fn read_told(alloc: Global, lexed: &Lexed) -> Result<Vec<u8>, AllocError> {
    match read(alloc, lexed) {
        Ok(sentences) => all(alloc, sentences.as_slice()),
        Err(fault) => fault_told(alloc, fault),
    }
}

/// What a source says, or its refusal.
pub fn sentences_told(alloc: Global, source: &[u8]) -> Result<Vec<u8>, AllocError> {
    match lex(alloc, source) {
        Ok(lexed) => read_told(alloc, &lexed),
        Err(fault) => fault_told(alloc, fault),
    }
}
