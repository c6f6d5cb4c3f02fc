//! A function of the tests' own for a rule, which is taken as the standard one is.

use play_meaning::{ActNo, ActionNow};
use smallvec::SmallVec;
use standard_rules::{HostAnswer, HostCall, HostOutcome, HostRule};
use std::alloc::{AllocError, Global};
use std::test::Fail;
use world_meaning::{ObjNo, TextBytes};
use world_store::World;

/// What the rule says.
const REFUSAL: &[u8] = b"You can't take yourself.\n";

/// That the player, who is number 0, can't be taken.
fn answered(alloc: Global, now: &ActionNow) -> Result<HostAnswer, AllocError> {
    let mut text = Vec::new(alloc);
    let mut outcome = HostOutcome::ByEnd;
    if let Some(noun) = now.noun {
        if noun.get() == 0 {
            text.extend_from_slice(b"You can't take yourself.\n")?;
            outcome = HostOutcome::Failure;
        }
    }
    Ok(HostAnswer {
        changes: SmallVec::new(alloc),
        text: TextBytes::new(text),
        tries: None,
        outcome,
    })
}

/// The answer as that of rule 9.
fn ninth(alloc: Global, world: &World, now: &ActionNow) -> Result<HostAnswer, AllocError> {
    Ok(answered(alloc, now)?)
}

#[test]
fn a_function_of_ones_own_is_taken(rt: HostRuntime) -> Result<(), Fail> {
    let call: HostCall = Box::new(
        rt.alloc(),
        |alloc: Global, world: &World, now: &ActionNow| -> Result<HostAnswer, AllocError> {
            ninth(alloc, world, now)
        },
    )?;
    assert_eq!(rt; HostRule::new(9, call).id(), 9);
    Ok(())
}

/// The action of no number on a noun.
fn on(noun: u16) -> ActionNow {
    ActionNow {
        action: ActNo::NONE,
        noun: Some(ObjNo::new(noun)),
        second: None,
        silent: false,
    }
}

#[test]
fn it_refuses_the_player_alone(rt: HostRuntime) -> Result<(), Fail> {
    let of_player = answered(rt.alloc(), &on(0))?;
    assert_eq!(rt; of_player.text.as_slice(), REFUSAL);
    assert_eq!(rt; of_player.outcome, HostOutcome::Failure);
    let of_another = answered(rt.alloc(), &on(17))?;
    assert!(rt; of_another.text.as_slice().is_empty());
    assert_eq!(rt; of_another.outcome, HostOutcome::ByEnd);
    Ok(())
}
