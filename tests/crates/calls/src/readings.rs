//! Reads sources and texts, a line of hexadecimal digits each, and prints what they are read as, in digits too. The words are a form
//! and a file: `tokens` of sources, their `sentences`, `pieces` of texts, and of sources that are one rule the `phrases` of its body,
//! with the line at which it is refused, and the `rules`.
mod actions;
mod assertions;
mod names;
mod phrases;
mod plans;
mod rules;
mod sentences;
mod spoken;
mod texts;
mod tokens;
mod values;

use crate::asked::{not_asked, text_named};
use crate::digits::bytes_told;
use crate::printing::print_each;
use phrases::phrases_told;
use rules::rule_told;
use sentences::sentences_told;
use std::alloc::{AllocError, Global};
use std::io;
use texts::pieces_told;
use tokens::tokens_told;

/// What is printed of the lines of a file.
#[derive(Clone, Copy)]
enum Form {
    Tokens,
    Sentences,
    Pieces,
    Phrases,
    Rules,
}

impl Form {
    /// The form of this name.
    fn from_name(name: &str) -> Option<Form> {
        match name {
            "tokens" => Some(Form::Tokens),
            "sentences" => Some(Form::Sentences),
            "pieces" => Some(Form::Pieces),
            "phrases" => Some(Form::Phrases),
            "rules" => Some(Form::Rules),
            _ => None,
        }
    }
}

/// What bytes are read as, in digits.
fn told(alloc: Global, form: Form, bytes: &[u8]) -> Result<String, AllocError> {
    let told = match form {
        Form::Tokens => tokens_told(alloc, bytes)?,
        Form::Sentences => sentences_told(alloc, bytes)?,
        Form::Pieces => pieces_told(alloc, bytes)?,
        Form::Phrases => phrases_told(alloc, bytes)?,
        Form::Rules => rule_told(alloc, bytes)?,
    };
    hex::encode(alloc, told.as_slice())
}

/// Prints what each line of the file is read as.
pub fn call(rt: &HostRuntime, words: &[String]) -> io::Result<()> {
    let [name, file @ ..] = words else {
        return Err(not_asked());
    };
    let Some(form) = Form::from_name(name.as_str()) else {
        return Err(not_asked());
    };
    let lines = text_named(rt, file)?;
    print_each(rt, lines.as_str(), '\n', |digits| {
        bytes_told(rt.alloc(), digits, |bytes| told(rt.alloc(), form, bytes))
    })
}
