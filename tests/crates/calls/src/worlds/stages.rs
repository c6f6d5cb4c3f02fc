//! Actions that are performed and rulebooks that are consulted on a stage, by their words.

use crate::no_action::NO_ACTION;
use crate::worlds::rules::quoted;
use crate::worlds::words::Words;
use action_stages::{LEVELS, Stage, consult, perform};
use play_meaning::{ActNo, ActionNow, Outcome};
use rule_index::Index;
use standard_rules::HostTable;
use std::alloc::{AllocError, Global};
use world_meaning::Abandon;
use world_store::World;

/// How an action or a rulebook ended.
fn ending(outcome: Option<Outcome>) -> &'static str {
    match outcome {
        None => "decides nothing",
        Some(Outcome::Success) => "succeeds",
        Some(Outcome::Failure) => "fails",
    }
}

/// What was said and how it ended.
fn told(alloc: Global, text: &[u8], outcome: Option<Outcome>) -> Result<String, AllocError> {
    if text.is_empty() {
        return format!(in alloc; "{}", ending(outcome));
    }
    format!(in alloc; "{} {}", quoted(alloc, text)?, ending(outcome))
}

/// What is tried, or followed outside an action.
#[derive(Clone, Copy, Debug)]
enum Asked {
    Action(ActionNow),
    Book(u16),
}

/// Does what is asked on a stage.
fn done(alloc: Global, stage: &mut Stage<'_>, asked: Asked) -> Result<Option<Outcome>, Abandon> {
    match asked {
        Asked::Action(now) => Ok(Some(perform(alloc, stage, now, LEVELS)?)),
        Asked::Book(book) => Ok(consult(alloc, stage, book, &NO_ACTION, LEVELS)?),
    }
}

/// Does what is asked in a world, which stays as it was where play is abandoned; none without a whole table of rules.
fn played(
    alloc: Global,
    world: &mut World,
    table: &HostTable,
    asked: Asked,
) -> Result<Option<String>, AllocError> {
    if !table.is_complete() {
        return Ok(None);
    }
    let index = Index::build(alloc, world.shared_story())?;
    let copy = world.copy(alloc)?;
    let mut stage = Stage::new(alloc, world.story(), &index, table, copy);
    match done(alloc, &mut stage, asked) {
        Ok(outcome) => {
            let line = told(alloc, stage.text(), outcome)?;
            *world = stage.into_world();
            Ok(Some(line))
        }
        Err(reason) => Ok(Some(format!(in alloc; "{reason}")?)),
    }
}

/// The action of a number, of a noun and a second one.
fn action_in(words: &mut Words<'_>) -> Option<ActionNow> {
    let action = words.place()?;
    let now = ActionNow {
        action: ActNo::new(action),
        noun: words.object(),
        second: words.object(),
        silent: false,
    };
    if words.are_read() { Some(now) } else { None }
}

/// Performs the action of a number, of a noun and a second one.
pub fn action_told(
    alloc: Global,
    world: &mut World,
    table: &HostTable,
    words: &mut Words<'_>,
) -> Result<Option<String>, AllocError> {
    match action_in(words) {
        Some(now) => played(alloc, world, table, Asked::Action(now)),
        None => Ok(None),
    }
}

/// How many rules are asked for an action, which is performed in a copy.
pub fn tests_told(
    alloc: Global,
    world: &World,
    table: &HostTable,
    words: &mut Words<'_>,
) -> Result<Option<String>, AllocError> {
    let Some(now) = action_in(words) else {
        return Ok(None);
    };
    if !table.is_complete() {
        return Ok(None);
    }
    let index = Index::build(alloc, world.shared_story())?;
    let copy = world.copy(alloc)?;
    let mut stage = Stage::new(alloc, world.story(), &index, table, copy);
    let _ = done(alloc, &mut stage, Asked::Action(now));
    Ok(Some(format!(in alloc; "{}", stage.tests())?))
}

/// Consults the rulebook of a number outside an action.
pub fn book_told(
    alloc: Global,
    world: &mut World,
    table: &HostTable,
    words: &mut Words<'_>,
) -> Result<Option<String>, AllocError> {
    match words.string() {
        Some(book) if words.are_read() => played(alloc, world, table, Asked::Book(book)),
        _ => Ok(None),
    }
}
