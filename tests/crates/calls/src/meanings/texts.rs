//! Texts with substitutions, by their pieces.

use crate::meanings::{descriptions, numbers};
use i7_conditions::{Found, Scope};
use i7_phrases::text_of;
use i7_sentences::{TextPiece, read_text};
use play_meaning::tree::{Piece, Said, Text};
use std::alloc::{AllocError, Global};

/// What a piece says.
fn piece(alloc: Global, piece: &Piece) -> Result<String, AllocError> {
    match piece {
        Piece::Bytes(bytes) => {
            let bytes = bytes.as_slice();
            format!(in alloc; "{bytes:?};")
        }
        Piece::Figure(number) => {
            let number = numbers::printed(alloc, number)?;
            format!(in alloc; "figure {number};")
        }
        Piece::Name(naming, object) => format!(in alloc; "{naming:?} {object:?};"),
        Piece::Listing(naming, those) => {
            let those = descriptions::printed(alloc, those)?;
            format!(in alloc; "{naming:?} list {those};")
        }
        Piece::DescriptionOf(object) => format!(in alloc; "description {object:?};"),
        Piece::ValueName(kind, object) => format!(in alloc; "value {kind} {object:?};"),
    }
}

/// What pieces say one behind the other.
fn all(alloc: Global, pieces: &[Piece]) -> Result<String, AllocError> {
    let mut line = String::new(alloc);
    for one in pieces {
        line.push_str(piece(alloc, one)?.as_str())?;
    }
    Ok(line)
}

/// What a part of a text says.
fn part(alloc: Global, part: &Said) -> Result<String, AllocError> {
    match part {
        Said::Plain(plain) => piece(alloc, plain),
        Said::If(condition, pieces, others) => {
            let asked = &condition.first.first.basic;
            let pieces = all(alloc, pieces.as_slice())?;
            let others = all(alloc, others.as_slice())?;
            format!(in alloc; "if {asked:?} ({pieces})({others})")
        }
    }
}

/// What a text says.
fn printed(alloc: Global, text: &Text) -> Result<String, AllocError> {
    let mut line = String::new(alloc);
    for said in text.parts.iter() {
        line.push_str(part(alloc, said)?.as_str())?;
    }
    Ok(line)
}

/// What pieces mean.
fn found(alloc: Global, scope: &Scope<'_>, pieces: &[TextPiece]) -> Result<String, AllocError> {
    match text_of(alloc, scope, pieces)? {
        Found::Read(text) => printed(alloc, &text),
        Found::TooMany => format!(in alloc; "too many"),
        Found::Unread => format!(in alloc; "unread"),
    }
}

/// What a text means.
pub fn text(alloc: Global, scope: &Scope<'_>, text: &str) -> Result<String, AllocError> {
    match read_text(alloc, text.as_bytes())? {
        Some(pieces) => found(alloc, scope, pieces.as_slice()),
        None => format!(in alloc; "no pieces"),
    }
}

/// From which piece on and up to which: `2 3`.
fn bounds(text: &str) -> Option<(usize, usize, &str)> {
    let (from, rest) = text.split_once(' ')?;
    let (to, text) = rest.split_once(' ')?;
    Some((from.parse::<usize>().ok()?, to.parse::<usize>().ok()?, text))
}

/// The pieces from one on and up to another, if there are so many.
fn between(pieces: &[TextPiece], from: usize, to: usize) -> Option<&[TextPiece]> {
    let (front, _) = pieces.split_at_checked(to)?;
    let (_, between) = front.split_at_checked(from)?;
    Some(between)
}

/// What some pieces of a text mean: `0 2 [if in darkness]B[end if]`, the first two.
pub fn pieces(alloc: Global, scope: &Scope<'_>, said: &str) -> Result<String, AllocError> {
    let Some((from, to, text)) = bounds(said) else {
        return format!(in alloc; "no bounds");
    };
    let Some(pieces) = read_text(alloc, text.as_bytes())? else {
        return format!(in alloc; "no pieces");
    };
    match between(pieces.as_slice(), from, to) {
        Some(pieces) => found(alloc, scope, pieces),
        None => format!(in alloc; "too few pieces"),
    }
}
