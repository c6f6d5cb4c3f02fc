//! A body, done from its beginning.

use crate::no_action::NO_ACTION;
use crate::rules::unplayed::Unplayed;
use play_meaning::GroundMut;
use std::alloc::Global;
use story_code::{
    RunState, Step, Verified, are_described_by, are_sound_together, is_body, runs_begin_standing,
    step_plain,
};
use world_meaning::Abandon;

/// What a body came to.
#[derive(Clone, Copy, Debug)]
pub enum Ended {
    /// It left off so, or asked for this.
    Left(Step),
    /// It broke play off.
    Broken(Abandon),
}

/// What becomes of a body that tries an action or follows a rulebook.
#[derive(Clone, Copy, PartialEq, Eq)]
pub enum Asked {
    /// It leaves off there.
    Told,
    /// It isn't played.
    Unplayed,
    /// What it asks is passed over.
    PassedOver,
}

/// More steps than a body takes that turns its loops ten thousand times.
const MANY: u32 = 10_000_000;

/// What a step comes to behind which the body is over, if it is.
fn over(step: Step, asked: Asked) -> Option<Result<Ended, Unplayed>> {
    match step {
        Step::GoesOn => None,
        Step::Try(_) | Step::Follow(_) => match asked {
            Asked::Told => Some(Ok(Ended::Left(step))),
            Asked::Unplayed => Some(Err(Unplayed::AsksMore)),
            Asked::PassedOver => None,
        },
        _ => Some(Ok(Ended::Left(step))),
    }
}

/// Finds out whether the body of a number can be done: its code is a body's, and the codes stand rightly together.
fn check<G: GroundMut>(ground: &G, codes: &[Verified], number: u16) -> Result<(), Unplayed> {
    if !are_sound_together(codes) {
        return Err(Unplayed::NotTogether);
    }
    if !is_body(codes, number) {
        return Err(Unplayed::NoBody);
    }
    if !are_described_by(ground, codes) {
        return Err(Unplayed::Undescribed);
    }
    Ok(())
}

/// Does the body of a number once, with no action and no work done so far.
fn run_once<G: GroundMut>(
    alloc: Global,
    ground: &mut G,
    codes: &[Verified],
    number: u16,
    text: &mut Vec<u8>,
    asked: Asked,
) -> Result<Ended, Unplayed> {
    runs_begin_standing();
    let mut state = RunState::new(number, 0);
    for _ in 0..MANY {
        match step_plain(alloc, ground, codes, &NO_ACTION, &mut state, text) {
            Ok(step) => match over(step, asked) {
                Some(ended) => return ended,
                None => {}
            },
            Err(reason) => return Ok(Ended::Broken(reason)),
        }
    }
    Err(Unplayed::Endless)
}

/// Does the body of a number as often as this, in the ground as it then stands: what the last run came to, and what that
/// said. The codes are looked at once, in front of all runs.
pub fn run<G: GroundMut>(
    alloc: Global,
    ground: &mut G,
    codes: &[Verified],
    number: u16,
    text: &mut Vec<u8>,
    asked: Asked,
    times: u32,
) -> Result<Ended, Unplayed> {
    check(ground, codes, number)?;
    let mut ended = Err(Unplayed::Endless);
    for _ in 0..times {
        text.clear();
        ended = run_once(alloc, ground, codes, number, text, asked);
    }
    ended
}
