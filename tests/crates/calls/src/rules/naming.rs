//! What the names of a source stand for. Behind the source stand a unit separator (U+001F) and what is asked: `name hall`, what it
//! stands for and of which kind it is the plural; `rulebook tidy`, its number; `counts`, how many rulebooks and scenes there are,
//! and whether a name holds an operator.
use crate::named::name_told;
use crate::rules::reading::sentences_in;
use i7_claims::Claimed;
use i7_names::{SourceNames, names_in};
use i7_sentences::Sentence;
use std::alloc::{AllocError, Global};

/// How many rulebooks and scenes there are, and whether a name holds an operator.
fn counts_told(alloc: Global, names: &SourceNames) -> Result<String, AllocError> {
    let rulebooks = names.rulebooks.len();
    let scenes = names.scenes;
    let operators = names.names.has_operators();
    format!(in alloc; "{rulebooks} {scenes} {operators}")
}

/// What is asked of names.
fn answer(alloc: Global, names: &SourceNames, asked: &str) -> Result<String, AllocError> {
    if asked == "counts" {
        return counts_told(alloc, names);
    }
    match asked.split_once(' ') {
        Some(("name", name)) => name_told(alloc, &names.names, name),
        Some(("rulebook", name)) => {
            let number = names.rulebooks.place_of(name.as_bytes());
            format!(in alloc; "{number:?}")
        }
        _ => format!(in alloc; "unknown"),
    }
}

/// What is asked of the names of sentences.
fn asked_of(alloc: Global, sentences: &[Sentence], asked: &str) -> Result<String, AllocError> {
    let claimed = Claimed::new(alloc, sentences)?;
    let names = names_in(alloc, &claimed)?;
    answer(alloc, &names, asked)
}

/// What is asked of the names of a source, or why the source is refused.
pub fn names_told(alloc: Global, record: &str) -> Result<String, AllocError> {
    let Some((source, asked)) = record.split_once('\u{1f}') else {
        return format!(in alloc; "no source");
    };
    match sentences_in(alloc, source) {
        Ok(sentences) => asked_of(alloc, sentences.as_slice(), asked),
        Err(unplayed) => format!(in alloc; "{unplayed}"),
    }
}
