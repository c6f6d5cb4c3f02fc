//! Stories that aren't begun, as stored rules are missing or one of them refuses memory in the opening; and one that is, in which
//! such a rule is asked later.
use crate::player::hall::HALL;
use crate::player::stored::{table_of, table_refusing};
use source_player::{SourceRunFault, play_bytes, run_story};
use standard_rules::HostTable;
use std::alloc::Global;
use std::test::Fail;
use story_format::load;
use story_player::{Session, StartFault, Watched};

/// The source of the story of the hall.
const SOURCE: &[u8] = b"The Hall is a room.";

/// Why the story of the hall isn't played over no commands; nothing may be written then.
fn unplayed(alloc: Global, hosts: HostTable) -> Result<Option<SourceRunFault>, Fail> {
    let mut commands = Watched::new(b"".as_slice());
    let mut transcript = Watched::new(Vec::new(alloc));
    let fault = run_story(alloc, HALL, hosts, &mut commands, &mut transcript, false).err();
    if transcript.into_inner().is_empty() {
        Ok(fault)
    } else {
        Ok(None)
    }
}

#[test]
fn sixty_stored_rules_are_too_few(rt: HostRuntime) -> Result<(), Fail> {
    let alloc = rt.alloc();
    let missing = StartFault::IncompleteHosts;
    let session = Session::start(alloc, load(alloc, HALL)?, table_of(alloc, 60)?);
    assert_eq!(rt; session.err(), Some(missing));
    assert_eq!(rt;
        unplayed(alloc, table_of(alloc, 60)?)?,
        Some(SourceRunFault::Start(missing))
    );
    let played = play_bytes(alloc, SOURCE, table_of(alloc, 60)?, b"", false);
    assert_eq!(rt; played.err(), Some(SourceRunFault::Start(missing)));
    Ok(())
}

#[test]
fn memory_that_the_opening_lacks_is_told_of_the_start(rt: HostRuntime) -> Result<(), Fail> {
    let alloc = rt.alloc();
    let lacking = StartFault::Memory;
    let session = Session::start(alloc, load(alloc, HALL)?, table_refusing(alloc, 1)?);
    assert_eq!(rt; session.err(), Some(lacking));
    assert_eq!(rt;
        unplayed(alloc, table_refusing(alloc, 1)?)?,
        Some(SourceRunFault::Start(lacking))
    );
    let played = play_bytes(alloc, SOURCE, table_refusing(alloc, 1)?, b"", false);
    assert_eq!(rt; played.err(), Some(SourceRunFault::Start(lacking)));
    Ok(())
}

#[test]
fn a_turn_whose_stored_rule_refuses_memory_is_abandoned(rt: HostRuntime) -> Result<(), Fail> {
    let alloc = rt.alloc();
    let source = b"The Hall is a room. The Garden is north of the Hall.".as_slice();
    // the rule that a closed door stops going is the first that going asks
    let hosts = table_refusing(alloc, 39)?;
    let play = play_bytes(alloc, source, hosts, b"n\nlook\nundo\n", true)?;
    let transcript =
        b"Hall\n\n>n\n[The turn was abandoned: out of memory.]\n\n>look\nHall\n\n>undo\nPrevious turn undone.\n\n>";
    assert_eq!(rt; play.transcript.as_slice(), transcript.as_slice());
    Ok(())
}

#[test]
fn a_tried_action_whose_stored_rule_refuses_memory_abandons_the_whole(
    rt: HostRuntime,
) -> Result<(), Fail> {
    let alloc = rt.alloc();
    let source =
        b"The Hall is a room. The ball is in the Hall.\n\nBefore waiting:\n\tnow the ball is nowhere;\n\ttry jumping.\n".as_slice();
    // the rule that reports jumping, which waiting tries
    let hosts = table_refusing(alloc, 53)?;
    let play = play_bytes(alloc, source, hosts, b"z\nlook\n", true)?;
    let transcript =
        b"Hall\nYou can see a ball here.\n\n>z\n[The turn was abandoned: out of memory.]\n\n>look\nHall\nYou can see a ball here.\n\n>";
    assert_eq!(rt; play.transcript.as_slice(), transcript.as_slice());
    Ok(())
}

#[test]
fn a_command_whose_stored_rule_refuses_memory_drops_the_rest(rt: HostRuntime) -> Result<(), Fail> {
    let alloc = rt.alloc();
    let source = b"The Hall is a room.".as_slice();
    // the rule that reports jumping
    let hosts = table_refusing(alloc, 53)?;
    let commands = b"look. jump. look\nundo. undo. jump. undo\nz then jump\n";
    let play = play_bytes(alloc, source, hosts, commands, true)?;
    let transcript =
        b"Hall\n\n>look. jump. look\nHall\n\n[The turn was abandoned: out of memory.]\n\
        \n>undo. undo. jump. undo\nPrevious turn undone.\n\nYou can't undo any further.\n\n[The turn was abandoned: out of memory.]\n\
        \n>z then jump\nTime passes.\n\n[The turn was abandoned: out of memory.]\n\n>";
    assert_eq!(rt; play.transcript.as_slice(), transcript.as_slice());
    Ok(())
}
