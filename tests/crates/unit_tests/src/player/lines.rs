//! Sessions line by line: the text, the kind and the world behind each line.
use crate::player::fakes::two_rooms;
use std::alloc::{AllocError, Global};
use std::test::Fail;
use story_player::Session;
use world_meaning::{Ending, ObjNo, ReplyKind};

/// The property that the player has looked round in a room.
const VISITED: u8 = 10;

/// A line, its text and kind, and the player's room and the turn count behind it.
type Row = (&'static [u8], &'static [u8], ReplyKind, u16, u32);

/// The two-room story, from the Hall (13) to the Garden (14) and back.
const TURNS: &[Row] = &[
    (b"look", b"Hall\nA bare hall.\n", ReplyKind::Kept, 13, 2),
    (b"L", b"Hall\nA bare hall.\n", ReplyKind::Kept, 13, 3),
    (b"e", b"You can't go that way.\n", ReplyKind::Kept, 13, 4),
    (b"go the north", b"Garden\n", ReplyKind::Kept, 14, 5),
    (b"n", b"You can't go that way.\n", ReplyKind::Kept, 14, 6),
    (b"SOUTH", b"Hall\nA bare hall.\n", ReplyKind::Kept, 13, 7),
    (b"q", b"", ReplyKind::Ended, 13, 7),
    (b"look", b"", ReplyKind::Over, 13, 7),
];

fn turns() -> &'static [Row] {
    TURNS
}

/// Lines that cost no turn, and what is said to them.
const FREE: &[(&[u8], &[u8])] = &[
    (b"", b"I beg your pardon?\n"),
    (b" \t ", b"I beg your pardon?\n"),
    (b"xyzzy", b"I don't know that verb.\n"),
    (b"go lamp", b"You can't see any such thing.\n"),
    (b"go", b"I didn't understand that sentence.\n"),
    (b"look foo", b"I didn't understand that sentence.\n"),
    (b"undo", b"You can't undo any further.\n"),
    (b"undo it", b"I don't know that verb.\n"),
];

fn free() -> &'static [(&'static [u8], &'static [u8])] {
    FREE
}

/// Lines of several commands of the two-room story; the kind is that of the last command that was done.
const SEVERAL: &[Row] = &[
    (
        b"n. s. look",
        b"Garden\n\nHall\nA bare hall.\n\nHall\nA bare hall.\n",
        ReplyKind::Kept,
        13,
        4,
    ),
    (
        b"n then undo",
        b"Garden\n\nPrevious turn undone.\n",
        ReplyKind::Free,
        13,
        4,
    ),
    (
        b"n.THEN.xyzzy. s",
        b"Garden\n\nI don't know that verb.\n",
        ReplyKind::Free,
        14,
        5,
    ),
    (
        b"e. take all. s",
        b"You can't go that way.\n\nThere is nothing to do that to.\n",
        ReplyKind::Free,
        14,
        6,
    ),
    (b". then .", b"I beg your pardon?\n", ReplyKind::Free, 14, 6),
    (b"s.q.n", b"Hall\nA bare hall.\n", ReplyKind::Ended, 13, 7),
    (b"look. look", b"", ReplyKind::Over, 13, 7),
];

fn several() -> &'static [Row] {
    SEVERAL
}

/// Whether the session answers the line as its row says.
fn is_answered(session: &mut Session, row: &Row) -> bool {
    let (line, text, kind, room, turns) = *row;
    let reply = session.line(line);
    let said = reply.text() == text && reply.kind() == kind;
    let world = session.world();
    said && world.location().get() == room && world.turns() == turns
}

#[test]
fn each_turn_has_its_text_its_kind_and_its_world(rt: HostRuntime) -> Result<(), Fail> {
    let mut session = two_rooms(rt.alloc())?;
    for row in turns() {
        assert!(rt; is_answered(&mut session, row), "{}", row.4);
    }
    assert_eq!(rt; session.ending(), Some(Ending::Quit));
    Ok(())
}

#[test]
fn each_command_of_a_line_is_done(rt: HostRuntime) -> Result<(), Fail> {
    let mut session = two_rooms(rt.alloc())?;
    for row in several() {
        assert!(rt; is_answered(&mut session, row), "{}", row.4);
    }
    assert_eq!(rt; session.ending(), Some(Ending::Quit));
    Ok(())
}

#[test]
fn other_lines_are_free(rt: HostRuntime) -> Result<(), Fail> {
    let mut session = two_rooms(rt.alloc())?;
    for (line, text) in free() {
        assert!(rt; is_answered(&mut session, &(*line, *text, ReplyKind::Free, 13, 1)));
    }
    Ok(())
}

#[test]
fn rooms_are_visited(rt: HostRuntime) -> Result<(), Fail> {
    let mut session = two_rooms(rt.alloc())?;
    assert_eq!(rt; session.opening(), b"Hall\nA bare hall.\n".as_slice());
    assert!(rt; session.world().flag(ObjNo::new(13), VISITED));
    assert!(rt; !session.world().flag(ObjNo::new(14), VISITED));
    let _ = session.line(b"north");
    assert!(rt; session.world().flag(ObjNo::new(14), VISITED));
    let _ = session.line(b"undo");
    assert!(rt; !session.world().flag(ObjNo::new(14), VISITED));
    Ok(())
}

#[test]
fn the_last_eight_turns_are_undone(rt: HostRuntime) -> Result<(), Fail> {
    let mut session = two_rooms(rt.alloc())?;
    for count in 2..11 {
        let way = if count % 2 == 0 { b"n" } else { b"s" };
        let _ = session.line(way);
        assert_eq!(rt; session.world().turns(), count);
    }
    for count in 0..8 {
        let room = if count % 2 == 0 { 13 } else { 14 };
        let row: Row = (
            b"undo",
            b"Previous turn undone.\n",
            ReplyKind::Free,
            room,
            9 - count,
        );
        assert!(rt; is_answered(&mut session, &row), "{}", count);
    }
    let row: Row = (
        b"undo",
        b"You can't undo any further.\n",
        ReplyKind::Free,
        14,
        2,
    );
    assert!(rt; is_answered(&mut session, &row));
    Ok(())
}

/// The piece so many times, and then the other bytes.
fn repeated(alloc: Global, piece: &[u8], count: u32, last: &[u8]) -> Result<Vec<u8>, AllocError> {
    let mut line = Vec::new(alloc);
    for _ in 0..count {
        line.extend_from_slice(piece)?;
    }
    line.extend_from_slice(last)?;
    Ok(line)
}

/// What is said to a line that is too long.
const TOO_LONG: &[u8] = b"That line is too long.\n";

/// What is said to a line without a command.
const BLANK: &[u8] = b"I beg your pardon?\n";

#[test]
fn a_line_is_read_up_to_255_bytes(rt: HostRuntime) -> Result<(), Fail> {
    let alloc = rt.alloc();
    let mut session = two_rooms(alloc)?;
    let longest = repeated(alloc, b" ", 251, b"look")?;
    assert_eq!(rt; session.line(longest.as_slice()).kind(), ReplyKind::Kept);
    let longer = repeated(alloc, b" ", 252, b"look")?;
    assert!(rt; session.line(longer.as_slice()).text() == TOO_LONG);
    Ok(())
}

#[test]
fn a_line_is_read_up_to_32_words(rt: HostRuntime) -> Result<(), Fail> {
    let alloc = rt.alloc();
    let mut session = two_rooms(alloc)?;
    let most = repeated(alloc, b"n ", 32, b"")?;
    assert!(rt; session.line(most.as_slice()).text() != TOO_LONG);
    let more = repeated(alloc, b"n ", 32, b"n")?;
    assert!(rt; session.line(more.as_slice()).text() == TOO_LONG);
    Ok(())
}

#[test]
fn a_line_has_up_to_128_commands(rt: HostRuntime) -> Result<(), Fail> {
    let alloc = rt.alloc();
    let mut session = two_rooms(alloc)?;
    let most = repeated(alloc, b"e.", 127, b"e")?;
    let said = repeated(
        alloc,
        b"You can't go that way.\n\n",
        127,
        b"You can't go that way.\n",
    )?;
    assert!(rt; session.line(most.as_slice()).text() == said.as_slice());
    assert_eq!(rt; session.world().turns(), 129);
    let more = repeated(alloc, b"e.", 128, b"")?;
    assert!(rt; session.line(more.as_slice()).text() == TOO_LONG);
    let none = repeated(alloc, b".", 300, b"")?;
    assert!(rt; session.line(none.as_slice()).text() == BLANK);
    Ok(())
}
