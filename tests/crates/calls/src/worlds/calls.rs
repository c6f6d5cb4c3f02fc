//! The calls, by their words, on the world with which a story begins; those that change it are made on a copy.
use crate::worlds::changes::{change_of, changed};
use crate::worlds::pair::{are_same, reverted};
use crate::worlds::words::Words;
use object_tree::Tree;
use play_meaning::{ActionNow, Change, WorldFault};
use rule_index::Index;
use standard_rules::{HostAnswer, HostCall, HostRule, HostTable, standard};
use std::alloc::{AllocError, Global};
use std::fmt;
use std::rc::Rc;
use story_format::Story;
use world_meaning::ObjNo;
use world_store::World;

/// What a call answers.
#[derive(Clone, Copy, Debug)]
pub enum Answer {
    Made,
    /// There was no memory for it, and the world is as it was.
    Refused,
    /// The world isn't as it should be behind it.
    Spoilt,
    Told(usize),
    Unknown,
}

impl fmt::Display for Answer {
    fn fmt<W: fmt::Write>(&self, f: &mut fmt::Formatter<W>) -> fmt::Result {
        match self {
            Answer::Made => f.write_str("made"),
            Answer::Refused => f.write_str("refused"),
            Answer::Spoilt => f.write_str("spoilt"),
            Answer::Told(told) => write!(f, "{told}"),
            Answer::Unknown => f.write_str("no such call"),
        }
    }
}

fn made(done: bool) -> Answer {
    if done { Answer::Made } else { Answer::Refused }
}

fn count(story: &Story) -> u16 {
    story.object_count() as u16
}

/// Whether the last object of the story is visible: 1 or 0.
fn sees_last(story: &Story, world: &World) -> usize {
    let last = ObjNo::new(count(story).saturating_sub(1));
    usize::from(world.visible(last))
}

/// How many objects are visible, the light found once.
fn visible_count(story: &Story, world: &World) -> usize {
    let light = world.lit_here();
    let mut seen = 0usize;
    for number in 0..count(story) {
        if world.visible_in(light, ObjNo::new(number)) {
            seen = seen.saturating_add(1);
        }
    }
    seen
}

/// The words of a change of each sort: those of a scene and of a value for a story that has some, the others for the furnished one.
fn words_of(call: &str) -> Option<&'static str> {
    match call {
        "set_flag" => Some("chest open true"),
        "set_number" => Some("coin weight 9"),
        "set_variable" => Some("1 40"),
        "set_scene" => Some("0 true true"),
        "set_value" => Some("14 0 1"),
        "put" => Some("coin on table"),
        "take_out" => Some("coin"),
        "end_story" => Some("You won."),
        _ => None,
    }
}

/// What is told of a call by whether it was made, and of a world behind it that should be as it was only where it was refused.
fn told_of(is_made: bool, world: &World, behind: &World) -> Answer {
    if is_made == are_same(world, behind) {
        Answer::Spoilt
    } else {
        made(is_made)
    }
}

/// Makes a change of a copy.
fn change_told(alloc: Global, world: &World, change: Change) -> Answer {
    let Ok(mut copy) = world.copy(alloc) else {
        return Answer::Refused;
    };
    match changed(&mut copy, change) {
        Ok(()) => told_of(true, world, &copy),
        Err(WorldFault::Memory) => told_of(false, world, &copy),
        Err(WorldFault::Misplaced) => Answer::Spoilt,
    }
}

/// Counts a turn more of a copy, in its first turn.
fn turn_told(alloc: Global, world: &World) -> Answer {
    let Ok(mut copy) = world.copy(alloc) else {
        return Answer::Refused;
    };
    if copy.turns() > 1 {
        return Answer::Unknown;
    }
    let done = copy.next_turn().is_ok();
    told_of(done, world, &copy)
}

/// Makes a change of each sort, as long as there is memory, and answers whether all were made.
fn are_made(alloc: Global, world: &mut World) -> bool {
    for call in [
        "set_flag",
        "set_number",
        "set_variable",
        "put",
        "take_out",
        "end_story",
    ] {
        let words = words_of(call).unwrap_or("");
        let done = match change_of(alloc, call, &mut Words::of(words)) {
            Some(change) => changed(world, change).is_ok(),
            None => false,
        };
        if !done {
            return false;
        }
    }
    true
}

/// Changes a copy and turns it back, so that it is as it was.
fn revert_told(alloc: Global, world: &World) -> Answer {
    let Ok(mut copy) = world.copy(alloc) else {
        return Answer::Refused;
    };
    let mark = copy.mark();
    let done = are_made(alloc, &mut copy);
    if reverted(&mut copy, mark) && are_same(world, &copy) {
        made(done)
    } else {
        Answer::Spoilt
    }
}

/// What the call of a change answers; there may be no memory for its text.
fn changing(alloc: Global, world: &World, call: &str) -> Answer {
    let Some(words) = words_of(call) else {
        return Answer::Unknown;
    };
    match change_of(alloc, call, &mut Words::of(words)) {
        Some(change) => change_told(alloc, world, change),
        None => Answer::Refused,
    }
}

/// A stored rule whose function is a test's own.
fn own_rule(alloc: Global, id: u8) -> Result<HostRule, AllocError> {
    let call: HostCall = Box::new(
        alloc,
        move |alloc: Global, world: &World, now: &ActionNow| -> Result<HostAnswer, AllocError> {
            standard(alloc, id, world, now)
        },
    )?;
    Ok(HostRule::new(id, call))
}

/// Whether a table without rules takes one.
fn is_added(alloc: Global) -> bool {
    match own_rule(alloc, 1) {
        Ok(rule) => HostTable::new(alloc).add(rule).is_ok(),
        Err(_) => false,
    }
}

/// What the call of a word answers.
pub fn called(alloc: Global, story: &Rc<Story>, world: &World, word: &str) -> Answer {
    match word {
        "idle" => Answer::Made,
        "tree" => made(Tree::new(alloc, count(story.as_ref())).is_ok()),
        "start" => made(World::start(alloc, story).is_ok()),
        "index" => made(Index::build(alloc, story).is_ok()),
        "hosts" => made(HostTable::standard(alloc).is_ok()),
        "add" => made(is_added(alloc)),
        "copy" => made(world.copy(alloc).is_ok()),
        "see" => Answer::Told(sees_last(story.as_ref(), world)),
        "list" => Answer::Told(visible_count(story.as_ref(), world)),
        "next_turn" => turn_told(alloc, world),
        "revert" => revert_told(alloc, world),
        _ => changing(alloc, world, word),
    }
}
