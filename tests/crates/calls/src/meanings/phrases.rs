//! What phrases do, and what those open that others belong to.

use i7_conditions::{Found, Scope, Step};
use i7_lexer::lex;
use i7_phrases::{block_of, change_of, ending_of};
use i7_sentences::{Assertion, RuleBody, Sentence, Spoken, read};
use play_meaning::tree::Simple;
use std::alloc::{AllocError, Global};

/// The body of the rule that a sentence says, if it says one.
fn body_in(sentence: Sentence) -> Option<RuleBody> {
    match sentence.said {
        Assertion::Rule(rule) => Some(rule.body),
        _ => None,
    }
}

/// The body of the rule that a source says, if it says one.
fn body(alloc: Global, source: &str) -> Option<RuleBody> {
    let lexed = lex(alloc, source.as_bytes()).ok()?;
    let mut sentences = read(alloc, &lexed).ok()?;
    body_in(sentences.pop()?)
}

/// What a phrase changes.
fn change(alloc: Global, found: Found<Simple>) -> Result<String, AllocError> {
    match found {
        Found::Read(change) => format!(in alloc; "{change:?}"),
        Found::TooMany => format!(in alloc; "too many"),
        Found::Unread => format!(in alloc; "unread"),
    }
}

/// How a phrase ends a rule or the story.
fn ending(alloc: Global, said: &Spoken) -> Result<String, AllocError> {
    match ending_of(alloc, said)? {
        Some(ending) => format!(in alloc; "{ending:?}"),
        None => format!(in alloc; "another"),
    }
}

/// What a phrase does, none that others belong to.
fn done(alloc: Global, scope: &Scope<'_>, said: &Spoken) -> Result<String, AllocError> {
    match change_of(alloc, scope, said)? {
        Some(found) => change(alloc, found),
        None => ending(alloc, said),
    }
}

/// What the one phrase of a rule does.
pub fn phrase(alloc: Global, scope: &Scope<'_>, text: &str) -> Result<String, AllocError> {
    let source = format!(in alloc; "Every turn, {text}.")?;
    let Some(body) = body(alloc, source.as_str()) else {
        return format!(in alloc; "no rule");
    };
    match body.as_slice() {
        [phrase] => done(alloc, scope, &phrase.said),
        _ => format!(in alloc; "no one phrase"),
    }
}

/// What a phrase opens.
fn step(alloc: Global, found: Option<Found<Step>>) -> Result<String, AllocError> {
    match found {
        None => format!(in alloc; "another"),
        Some(Found::Read(step)) => format!(in alloc; "{step:?}"),
        Some(Found::TooMany) => format!(in alloc; "too many"),
        Some(Found::Unread) => format!(in alloc; "unread"),
    }
}

/// What a phrase opens that stands behind the block of an `if` and has one of its own.
pub fn opened(alloc: Global, scope: &Scope<'_>, text: &str) -> Result<String, AllocError> {
    let source = format!(in alloc;
        "Every turn:\n\tif in darkness:\n\t\trule fails;\n\t{text}:\n\t\trule fails."
    )?;
    let Some(body) = body(alloc, source.as_str()) else {
        return format!(in alloc; "no rule");
    };
    match body.as_slice() {
        [_, _, phrase, _] => step(alloc, block_of(alloc, scope, &phrase.said)?),
        _ => format!(in alloc; "no such phrases"),
    }
}
