//! The pieces of a text: `|bytes|` printed, `<words>` between brackets, `{condition:`, `/` and `}` of ifs.
use i7_sentences::{TextPiece, WordList, read_text};
use std::alloc::{AllocError, Global};

/// Adds words, parted by commas.
fn add_joined(out: &mut Vec<u8>, words: &WordList) -> Result<(), AllocError> {
    let mut is_first = true;
    for word in words.as_slice() {
        if !is_first {
            out.push(b',')?;
        }
        out.extend_from_slice(word.as_slice())?;
        is_first = false;
    }
    Ok(())
}

/// Adds words between two brackets of a kind.
pub fn add_words(
    out: &mut Vec<u8>,
    open: u8,
    words: &WordList,
    close: u8,
) -> Result<(), AllocError> {
    out.push(open)?;
    add_joined(out, words)?;
    out.push(close)?;
    Ok(())
}

/// Adds bytes as they are.
pub fn add_printed(out: &mut Vec<u8>, bytes: &[u8]) -> Result<(), AllocError> {
    out.push(b'|')?;
    out.extend_from_slice(bytes)?;
    out.push(b'|')?;
    Ok(())
}

/// Adds a piece.
fn add_piece(out: &mut Vec<u8>, piece: &TextPiece) -> Result<(), AllocError> {
    match piece {
        TextPiece::Printed(bytes) => add_printed(out, bytes.as_slice())?,
        TextPiece::Substitution(words) => add_words(out, b'<', words, b'>')?,
        TextPiece::If(words) => add_words(out, b'{', words, b':')?,
        TextPiece::Otherwise => out.push(b'/')?,
        TextPiece::EndIf => out.push(b'}')?,
    }
    Ok(())
}

/// Adds pieces.
pub fn add_pieces(out: &mut Vec<u8>, pieces: &[TextPiece]) -> Result<(), AllocError> {
    for piece in pieces {
        add_piece(out, piece)?;
    }
    Ok(())
}

/// The pieces of a text, `C5` where it isn't understood.
pub fn pieces_told(alloc: Global, text: &[u8]) -> Result<Vec<u8>, AllocError> {
    let mut out = Vec::new(alloc);
    match read_text(alloc, text)? {
        None => out.extend_from_slice(b"C5")?,
        Some(pieces) => add_pieces(&mut out, pieces.as_slice())?,
    }
    Ok(out)
}
