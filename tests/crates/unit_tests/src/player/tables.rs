//! Tables of stored rules, told by hand.

use crate::player::stored::{refused, stored, table_of};
use play_meaning::{ActNo, ActionNow};
use sample_stories::FURNISHED;
use standard_rules::{HostFault, HostOutcome, HostTable};
use std::alloc::Global;
use std::rc::Rc;
use std::test::Fail;
use story_format::load;
use world_store::World;

/// What the first rule says in the hall.
const HALL: &[u8] = b"hall\n";

#[test]
fn rules_come_in_order(rt: HostRuntime) -> Result<(), Fail> {
    let mut table = HostTable::new(rt.alloc());
    let second = stored(rt.alloc(), 2)?;
    assert_eq!(rt; table.add(second), Err(HostFault::OutOfOrder));
    let first = stored(rt.alloc(), 1)?;
    assert_eq!(rt; table.add(first), Ok(()));
    let again = stored(rt.alloc(), 1)?;
    assert_eq!(rt; table.add(again), Err(HostFault::OutOfOrder));
    assert!(rt; !table.is_complete());
    Ok(())
}

#[test]
fn sixty_one_rules_are_all(rt: HostRuntime) -> Result<(), Fail> {
    let sixty = table_of(rt.alloc(), 60)?;
    assert!(rt; !sixty.is_complete());
    let mut all = table_of(rt.alloc(), 61)?;
    assert!(rt; all.is_complete());
    let last = stored(rt.alloc(), 61)?;
    assert_eq!(rt; all.add(last), Err(HostFault::Full));
    let first = stored(rt.alloc(), 1)?;
    assert_eq!(rt; all.add(first), Err(HostFault::Full));
    Ok(())
}

#[test]
fn the_table_of_the_standard_rules_is_whole(rt: HostRuntime) -> Result<(), Fail> {
    let mut standard = HostTable::standard(rt.alloc())?;
    assert!(rt; standard.is_complete());
    let last = stored(rt.alloc(), 61)?;
    assert_eq!(rt; standard.add(last), Err(HostFault::Full));
    Ok(())
}

/// The world with which the furnished story begins.
fn begun(alloc: Global) -> Result<World, Fail> {
    let story = Rc::new(alloc, load(alloc, FURNISHED)?)?;
    Ok(World::start(alloc, &story)?)
}

/// No action, which every story has.
fn nothing(world: &World) -> ActionNow {
    let _ = world;
    ActionNow {
        action: ActNo::NONE,
        noun: None,
        second: None,
        silent: false,
    }
}

#[test]
fn the_stored_function_is_called(rt: HostRuntime) -> Result<(), Fail> {
    let mut table = HostTable::new(rt.alloc());
    let first = stored(rt.alloc(), 1)?;
    table.add(first)?;
    let without_memory = refused(rt.alloc(), 2)?;
    table.add(without_memory)?;
    let world = begun(rt.alloc())?;
    let now = nothing(&world);
    let heading = table.call(rt.alloc(), 1, &world, &now)?;
    assert_eq!(rt; heading.text.as_slice(), HALL);
    assert_eq!(rt; heading.outcome, HostOutcome::ByEnd);
    assert!(rt; table.call(rt.alloc(), 2, &world, &now).is_err());
    Ok(())
}
