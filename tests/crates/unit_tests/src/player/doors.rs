//! A door between two rooms, closed and open, from both sides.
use crate::player::fakes::session_of;
use std::test::Fail;
use story_player::Session;
use world_meaning::ReplyKind;

/// What is seen in the hall.
const HALL: &[u8] = b"hall\nYou can see a chest and a table here.\n";

/// What is told of the dark cave.
const CAVE: &[u8] = b"Darkness\nIt is pitch dark, and you can't see a thing.\n";

/// What is told of the gate where it is closed.
const CLOSED: &[u8] = b"The gate is closed.\n";

/// A lighted hall and a dark cave, with a closed gate between them.
const CLOSED_GATE: &[u8] = b"The hall is a room. The cave is a dark room.\n\n\
    The gate is a closed openable door. The gate is north of the hall and south of the cave.\n\n\
    The chest is in the hall. The table is a supporter in the hall.\n";

/// The same, and the gate is open.
const OPEN_GATE: &[u8] = b"The hall is a room. The cave is a dark room.\n\n\
    The gate is an open openable door. The gate is north of the hall and south of the cave.\n\n\
    The chest is in the hall. The table is a supporter in the hall.\n";

/// Whether the session answers the line so, in a turn that leaves the player in the room of this number.
fn is_turn(session: &mut Session, line: &[u8], text: &[u8], room: u16) -> bool {
    let reply = session.line(line);
    let said = reply.text() == text && reply.kind() == ReplyKind::Kept;
    said && session.world().location().get() == room
}

#[test]
fn a_closed_door_stops_the_player(rt: HostRuntime) -> Result<(), Fail> {
    let mut session = session_of(rt.alloc(), CLOSED_GATE)?;
    assert_eq!(rt; session.opening(), HALL);
    assert!(rt; is_turn(&mut session, b"n", CLOSED, 13));
    assert!(rt; is_turn(&mut session, b"go the north", CLOSED, 13));
    assert!(rt; is_turn(&mut session, b"s", b"You can't go that way.\n", 13));
    assert_eq!(rt; session.world().turns(), 4);
    Ok(())
}

#[test]
fn an_open_door_leads_through_both_ways(rt: HostRuntime) -> Result<(), Fail> {
    let mut session = session_of(rt.alloc(), OPEN_GATE)?;
    assert!(rt; is_turn(&mut session, b"n", CAVE, 14));
    assert!(rt; is_turn(&mut session, b"n", b"You can't go that way.\n", 14));
    assert!(rt; is_turn(&mut session, b"s", HALL, 13));
    Ok(())
}
