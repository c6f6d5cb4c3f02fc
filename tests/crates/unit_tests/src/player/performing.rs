//! Actions that are performed with stored rules, told by hand.
use crate::player::hall::HALL;
use crate::player::stored::table_refusing;
use action_stages::{Stage, perform};
use play_meaning::{ActNo, ActionNow, Outcome};
use rule_index::Index;
use standard_rules::HostTable;
use std::alloc::Global;
use std::rc::Rc;
use std::test::Fail;
use story_format::{Story, load};
use world_meaning::Abandon;
use world_store::World;

/// What a look round comes to and says; nothing without a whole table.
fn looked(
    rt: &HostRuntime,
    table: &HostTable,
    story: &Rc<Story>,
    said: &[u8],
    wanted: Result<bool, Abandon>,
) -> Result<bool, Fail> {
    if !table.is_complete() {
        return Ok(false);
    }
    let world = World::start(rt.alloc(), story)?;
    let index = Index::build(rt.alloc(), story)?;
    let mut stage = Stage::new(rt.alloc(), story.as_ref(), &index, table, world);
    let looking = ActionNow {
        action: ActNo::new(0),
        noun: None,
        second: None,
        silent: false,
    };
    let came = match perform(rt.alloc(), &mut stage, looking, 16) {
        Ok(outcome) => Ok(matches!(outcome, Outcome::Success)),
        Err(reason) => Err(reason),
    };
    Ok(came == wanted && (came.is_err() || stage.text() == said))
}

#[test]
fn the_stored_function_is_performed(rt: HostRuntime) -> Result<(), Fail> {
    let story = Rc::new(rt.alloc(), load(rt.alloc(), HALL)?)?;
    let without_heading = table_refusing(rt.alloc(), 1)?;
    assert!(rt; looked(&rt, &without_heading, &story, b"", Err(Abandon::Memory))?);
    let without_examining = table_refusing(rt.alloc(), 5)?;
    assert!(rt; looked(&rt, &without_examining, &story, b"Hall\n", Ok(true))?);
    Ok(())
}
