//! Rows: calls of a story's world, `;` in between, made one after the other on a world as the story begins.
use crate::joined::add;
use crate::worlds::answer::{chain_told, objects_told, truth_told};
use crate::worlds::buckets::{bucket_told, place_told};
use crate::worlds::changes::{change_of, changed};
use crate::worlds::pair::Pair;
use crate::worlds::reads::read_told;
use crate::worlds::rules::rule_told;
use crate::worlds::stages::{action_told, book_told, tests_told};
use crate::worlds::words::Words;
use play_meaning::make;
use standard_rules::HostTable;
use std::alloc::{AllocError, Global};
use std::rc::Rc;
use story_format::Story;
use world_store::World;

/// A turn count that a row doesn't come to.
const MANY_TURNS: u32 = 1000;

fn made(alloc: Global) -> Result<String, AllocError> {
    format!(in alloc; "made")
}

fn unknown(alloc: Global) -> Result<String, AllocError> {
    format!(in alloc; "no such call")
}

/// What a call answers that changes a world or reads it.
fn world_told(
    alloc: Global,
    world: &mut World,
    call: &str,
    words: &mut Words<'_>,
) -> Result<String, AllocError> {
    let Some(change) = change_of(alloc, call, words) else {
        return match read_told(alloc, world, call, words)? {
            Some(told) => Ok(told),
            None => unknown(alloc),
        };
    };
    if !words.are_read() {
        return unknown(alloc);
    }
    match changed(world, change) {
        Ok(()) => made(alloc),
        Err(fault) => format!(in alloc; "{fault}"),
    }
}

/// Makes a change that is told by words, whether or not it is allowed.
fn make_told(
    alloc: Global,
    world: &mut World,
    words: &mut Words<'_>,
) -> Result<String, AllocError> {
    let call = words.word();
    match change_of(alloc, call, words) {
        Some(change) if words.are_read() => {
            make(world, change)?;
            made(alloc)
        }
        _ => unknown(alloc),
    }
}

/// Counts a turn more, if they aren't too many.
fn next_turn_told(alloc: Global, world: &mut World) -> Result<String, AllocError> {
    if world.turns() < MANY_TURNS {
        world.next_turn()?;
        made(alloc)
    } else {
        format!(in alloc; "too many turns")
    }
}

/// What the call of an object's chain answers.
fn climb_told(alloc: Global, world: &World, words: &mut Words<'_>) -> Result<String, AllocError> {
    match words.object() {
        Some(object) if words.are_read() => chain_told(alloc, world.chain(object)),
        _ => unknown(alloc),
    }
}

/// What the call of a rule, an action or a rulebook answers, if it is one of these.
fn played_told(
    alloc: Global,
    world: &mut World,
    table: &HostTable,
    call: &str,
    words: &mut Words<'_>,
) -> Result<Option<String>, AllocError> {
    match call {
        "rule" => Ok(rule_told(alloc, world, words)?),
        "perform" => Ok(action_told(alloc, world, table, words)?),
        "consult" => Ok(book_told(alloc, world, table, words)?),
        "tests" => Ok(tests_told(alloc, world, table, words)?),
        "bucket" => Ok(bucket_told(alloc, world, words)?),
        "place" => Ok(place_told(alloc, world, words)?),
        _ => Ok(None),
    }
}

/// What a call answers by its words.
fn words_told(
    alloc: Global,
    world: &mut World,
    table: &HostTable,
    told: &str,
) -> Result<String, AllocError> {
    let mut words = Words::of(told);
    match words.word() {
        "make" => make_told(alloc, world, &mut words),
        "chain" => climb_told(alloc, world, &mut words),
        "rule" | "perform" | "consult" | "tests" | "bucket" | "place" => {
            let call = Words::of(told).word();
            match played_told(alloc, world, table, call, &mut words)? {
                Some(told) => Ok(told),
                None => unknown(alloc),
            }
        }
        call => world_told(alloc, world, call, &mut words),
    }
}

/// Turns the world that is called back to the last mark that is left.
fn revert_told(alloc: Global, pair: &mut Pair) -> Result<String, AllocError> {
    if pair.revert() {
        made(alloc)
    } else {
        format!(in alloc; "no such mark")
    }
}

/// What a call answers. Beside those of the world there are `make` in front of a change, which makes it by the function of that
/// name; `rule`, what the standard rule of a number answers of a noun and a second one, its changes being made; `perform`, what an action
/// says and comes to, `tests`, how many rules are asked for it, and `consult`, what a rulebook does outside an action; `bucket`, which rules of
/// a rulebook admit an action, a noun and a room, and `place`, where a rule stands in its rulebook; `copy`, behind which the calls go to the copy; `other`, behind which they go to the world that isn't called;
/// `agree`, whether the two worlds say the same of all objects; `mark`, and `revert`, which turns the world that is called back to the
/// last mark that is left.
fn call_told(
    alloc: Global,
    pair: &mut Pair,
    table: &HostTable,
    call: &str,
) -> Result<String, AllocError> {
    match call {
        "copy" => {
            pair.copy(alloc)?;
            made(alloc)
        }
        "other" => {
            pair.swap();
            made(alloc)
        }
        "mark" => {
            pair.mark()?;
            made(alloc)
        }
        "revert" => revert_told(alloc, pair),
        "agree" => truth_told(alloc, pair.agree()),
        "next_turn" => next_turn_told(alloc, &mut pair.here),
        "on_view" => objects_told(alloc, pair.here.on_view(alloc)?.as_slice()),
        _ => words_told(alloc, &mut pair.here, table, call),
    }
}

/// What the calls of a row answer, `; ` in between.
pub fn row_told(
    alloc: Global,
    story: &Rc<Story>,
    table: &HostTable,
    row: &str,
) -> Result<String, AllocError> {
    let mut pair = Pair::begun(alloc, story)?;
    let mut line = String::new(alloc);
    for call in row.split(';') {
        let told = call_told(alloc, &mut pair, table, call)?;
        add(&mut line, "; ", told.as_str())?;
    }
    Ok(line)
}
