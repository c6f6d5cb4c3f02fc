//! The standard rules, each called by its number.
use crate::joined::add;
use crate::worlds::words::Words;
use play_meaning::{ActNo, ActionNow, make};
use standard_rules::{HostAnswer, HostOutcome, standard};
use std::alloc::{AllocError, Global};
use world_store::World;

/// How many standard rules there are.
const RULES: u8 = 61;

/// The number of a rule and the nouns that a call names.
fn asked(words: &mut Words<'_>) -> Option<(u8, ActionNow)> {
    let id = words.place()?;
    let now = ActionNow {
        action: ActNo::NONE,
        noun: words.object(),
        second: words.object(),
        silent: false,
    };
    if words.are_read() {
        Some((id, now))
    } else {
        None
    }
}

/// The lines of a text, a stroke for each line break.
fn strokes(alloc: Global, text: &str) -> Result<String, AllocError> {
    let mut told = String::new(alloc);
    let mut is_first = true;
    for line in text.split('\n') {
        if !is_first {
            told.push_str("/")?;
        }
        is_first = false;
        told.push_str(line)?;
    }
    Ok(told)
}

/// A text in quotation marks, a stroke for each line break.
pub fn quoted(alloc: Global, text: &[u8]) -> Result<String, AllocError> {
    match str::from_utf8(text) {
        Ok(text) => format!(in alloc; "\"{}\"", strokes(alloc, text)?),
        Err(_) => format!(in alloc; "no text"),
    }
}

/// How a rule ends; nothing where it ends by itself.
fn ending(outcome: HostOutcome) -> &'static str {
    match outcome {
        HostOutcome::ByEnd => "",
        HostOutcome::Success => "succeeds",
        HostOutcome::Failure => "fails",
        HostOutcome::OutOfRange => "out of range",
    }
}

/// What an answer says, what it tries, and how its rule ends; that it is made, where it is nothing of these.
fn told(alloc: Global, answer: &HostAnswer) -> Result<String, AllocError> {
    let mut line = String::new(alloc);
    if !answer.text.as_slice().is_empty() {
        add(
            &mut line,
            " ",
            quoted(alloc, answer.text.as_slice())?.as_str(),
        )?;
    }
    if let Some(now) = answer.tries {
        let action = format!(in alloc; "tries {}", now.action.get())?;
        add(&mut line, " ", action.as_str())?;
    }
    if answer.outcome != HostOutcome::ByEnd {
        add(&mut line, " ", ending(answer.outcome))?;
    }
    if line.is_empty() {
        add(&mut line, " ", "made")?;
    }
    Ok(line)
}

/// Makes the changes that a standard rule answers, and tells the rest of its answer; none where there is no such call.
pub fn rule_told(
    alloc: Global,
    world: &mut World,
    words: &mut Words<'_>,
) -> Result<Option<String>, AllocError> {
    let Some((id, now)) = asked(words) else {
        return Ok(None);
    };
    if id < 1 || id > RULES {
        return Ok(None);
    }
    let answer = standard(alloc, id, world, &now)?;
    let line = told(alloc, &answer)?;
    for change in answer.changes {
        make(world, change)?;
    }
    Ok(Some(line))
}
