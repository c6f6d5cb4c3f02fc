//! A source, from its words to what the body of its one rule does in the world of its story.
use crate::joined::add;
use crate::rules::runner::{Asked, Ended, run};
use crate::rules::told_code::all_told;
use crate::rules::unplayed::Unplayed;
use std::alloc::{AllocError, Global};
use std::rc::Rc;
use story_file::compile;
use story_format::{Story, load};
use world_store::World;

/// What the body of a story's rule did, said and left behind.
#[derive(Drop)]
struct Played {
    ended: Ended,
    text: Vec<u8>,
    world: World,
}

/// The story of a source.
pub fn story_of(alloc: Global, source: &str) -> Result<Rc<Story>, Unplayed> {
    let bytes = compile(alloc, source.as_bytes())?;
    let story = load(alloc, bytes.as_slice())?;
    Ok(Rc::new(alloc, story)?)
}

/// The number of the code that does what the author's one rule does; none where there are more.
fn only_body(story: &Story) -> Option<u16> {
    let mut only = None;
    for rule in 0..story.rule_count() {
        if let Some(body) = story.body_of_rule(rule) {
            if only.is_some() {
                return None;
            }
            only = Some(body);
        }
    }
    only
}

/// Does the body of a source's one rule once, in the world with which its story begins.
fn play(alloc: Global, source: &str) -> Result<Played, Unplayed> {
    let story = story_of(alloc, source)?;
    let Some(number) = only_body(story.as_ref()) else {
        return Err(Unplayed::NotOneRule);
    };
    let codes = story.as_ref().codes();
    let mut world = World::start(alloc, &story)?;
    let mut text = Vec::new(alloc);
    let ended = run(
        alloc,
        &mut world,
        codes,
        number,
        &mut text,
        Asked::Unplayed,
        1,
    )?;
    Ok(Played { ended, text, world })
}

/// What a body did, as it is printed: how it left off, the text with which the story ended, if it has, and what was said, as
/// bytes; or why it broke off.
fn printed(alloc: Global, played: &Played) -> Result<String, AllocError> {
    let said = played.text.as_slice();
    let ended = played.world.ended();
    match &played.ended {
        Ended::Left(step) => format!(in alloc; "did\t{step:?}\t{ended:?}\t{said:?}"),
        Ended::Broken(reason) => format!(in alloc; "stopped\t{reason}"),
    }
}

/// What a source comes to: what the body of its rule did, why it broke off, or why it isn't played.
pub fn told(alloc: Global, source: &str) -> Result<String, AllocError> {
    match play(alloc, source) {
        Ok(played) => printed(alloc, &played),
        Err(unplayed) => format!(in alloc; "{unplayed}"),
    }
}

/// The codes of a source's story, or why there is none.
pub fn told_codes(alloc: Global, source: &str) -> Result<String, AllocError> {
    match story_of(alloc, source) {
        Ok(story) => all_told(alloc, story.as_ref().codes()),
        Err(unplayed) => format!(in alloc; "{unplayed}"),
    }
}

/// A number, or `-` where there is none.
fn number_told(alloc: Global, number: Option<u16>) -> Result<String, AllocError> {
    match number {
        Some(number) => format!(in alloc; "{number}"),
        None => format!(in alloc; "-"),
    }
}

/// The place of a rule among those that its rulebook lists.
fn place_of(story: &Story, rule: usize) -> Option<u16> {
    let book = story.book_of_rule(rule)?;
    let mut place = 0u16;
    for listed in story.rules_listed(book) {
        if usize::from(*listed) == rule {
            return Some(place);
        }
        place = place.saturating_add(1);
    }
    None
}

/// A rule of a story: its rulebook, the code of its condition, that of its body, and its place in the rulebook.
fn rule_told(alloc: Global, story: &Story, rule: usize) -> Result<String, AllocError> {
    let book = number_told(alloc, story.book_of_rule(rule))?;
    let condition = number_told(alloc, story.condition_of_rule(rule))?;
    let body = number_told(alloc, story.body_of_rule(rule))?;
    let place = number_told(alloc, place_of(story, rule))?;
    format!(in alloc; "{book} {condition} {body} {place}")
}

/// The author's rules of a story, a comma in between: the others have no code.
fn all_rules_told(alloc: Global, story: &Story) -> Result<String, AllocError> {
    let mut all = String::new(alloc);
    for rule in 0..story.rule_count() {
        if story.body_of_rule(rule).is_some() {
            add(&mut all, ", ", rule_told(alloc, story, rule)?.as_str())?;
        }
    }
    Ok(all)
}

/// The rules of a source's story, or why there is none.
pub fn told_rules(alloc: Global, source: &str) -> Result<String, AllocError> {
    match story_of(alloc, source) {
        Ok(story) => all_rules_told(alloc, story.as_ref()),
        Err(unplayed) => format!(in alloc; "{unplayed}"),
    }
}
