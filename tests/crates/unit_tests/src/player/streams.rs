//! Sessions over streams that fail, that never end or that move a byte at a time.
use crate::player::fakes::{Commands, Repeated, Transcript, WhenFull, two_rooms};
use sample_stories::TWO_ROOMS;
use source_player::run_source;
use standard_rules::HostTable;
use std::alloc::Global;
use std::io::{BufReader, Read};
use std::test::Fail;
use story_player::{RunFault, Session, Watched, run};
use world_meaning::{Ending, ObjNo};

/// What the two-room story says at first.
const OPENING: &[u8] = b"Hall\nA bare hall.\n\n>";

/// The most bytes of commands that are read.
const MOST_INPUT: usize = 16_777_216;

/// How playing went, and what was written.
fn played<R: Read + Drop>(
    alloc: Global,
    reader: R,
    session: &mut Session,
    echo: bool,
) -> (Result<Ending, RunFault>, Vec<u8>) {
    let mut written = Vec::new(alloc);
    let mut commands = Watched::new(reader);
    let mut transcript = Watched::new(&mut written);
    let ending = run(&mut commands, &mut transcript, session, echo);
    (ending, written)
}

#[test]
fn input_without_end_is_refused(rt: HostRuntime) -> Result<(), Fail> {
    let alloc = rt.alloc();
    let mut session = two_rooms(alloc)?;
    let endless = Repeated {
        byte: b'a',
        left: usize::MAX,
    };
    let (ending, written) = played(alloc, endless, &mut session, false);
    assert_eq!(rt; ending, Err(RunFault::InputTooLong));
    assert_eq!(rt; written.as_slice(), OPENING);
    assert_eq!(rt; session.world().turns(), 1);
    Ok(())
}

#[test]
fn the_longest_input_is_one_empty_line(rt: HostRuntime) -> Result<(), Fail> {
    let alloc = rt.alloc();
    let mut session = two_rooms(alloc)?;
    let longest = Repeated {
        byte: b' ',
        left: MOST_INPUT,
    };
    let (ending, written) = played(alloc, longest, &mut session, false);
    assert_eq!(rt; ending, Ok(Ending::EndOfInput));
    let answered = b"Hall\nA bare hall.\n\n>I beg your pardon?\n\n>";
    assert_eq!(rt; written.as_slice(), answered.as_slice());
    let mut session = two_rooms(alloc)?;
    let longer = Repeated {
        byte: b' ',
        left: MOST_INPUT + 1,
    };
    let (ending, written) = played(alloc, longer, &mut session, false);
    assert_eq!(rt; ending, Err(RunFault::InputTooLong));
    assert_eq!(rt; written.as_slice(), OPENING);
    Ok(())
}

#[test]
fn failing_reads_end_the_run(rt: HostRuntime) -> Result<(), Fail> {
    let alloc = rt.alloc();
    let mut session = two_rooms(alloc)?;
    let (hall, garden) = (ObjNo::new(13), ObjNo::new(14));
    let arrival = b"Hall\nA bare hall.\n\n>n\nGarden\n\n>";
    let again = b"Hall\nA bare hall.\n\n>look\nGarden\n\n>";
    let runs = [
        (b"".as_slice(), true, Err(RunFault::Read), OPENING, hall),
        (b"n\n", true, Err(RunFault::Read), arrival, garden),
        (b"look", true, Err(RunFault::Read), OPENING, garden),
        (b"look", false, Ok(Ending::EndOfInput), again, garden),
    ];
    for (rest, fails, wanted, text, place) in runs {
        let most = 1;
        let commands = Commands { rest, most, fails };
        let (ending, written) = played(alloc, commands, &mut session, true);
        assert_eq!(rt; ending, wanted);
        assert_eq!(rt; written.as_slice(), text);
        assert_eq!(rt; session.world().location(), place);
    }
    Ok(())
}

#[test]
fn failing_writes_end_the_run(rt: HostRuntime) -> Result<(), Fail> {
    let alloc = rt.alloc();
    let writers = [
        (5usize, WhenFull::Fails, b"Hall\n".as_slice()),
        (0, WhenFull::TakesNone, b""),
        (20, WhenFull::TakesNone, OPENING),
    ];
    for (room, when_full, text) in writers {
        let mut session = two_rooms(alloc)?;
        let mut taken = Vec::new(alloc);
        let mut commands = Watched::new(b"n\n".as_slice());
        let mut transcript = Watched::new(Transcript {
            taken: &mut taken,
            most: usize::MAX,
            room,
            when_full,
        });
        let ending = run(&mut commands, &mut transcript, &mut session, false);
        assert_eq!(rt; ending, Err(RunFault::Write));
        assert!(rt; transcript.has_failed());
        assert_eq!(rt; taken.as_slice(), text);
    }
    Ok(())
}

#[test]
fn the_size_of_the_pieces_is_no_matter(rt: HostRuntime) -> Result<(), Fail> {
    let alloc = rt.alloc();
    let whole = b"Hall\nA bare hall.\n\n>n\nGarden\n\n>look\nGarden\n\n>s\nHall\nA bare hall.\n\n>";
    for (given, most) in [(1usize, 1usize), (1, 1_000), (1_000, 1), (1_000, 1_000)] {
        let mut taken = Vec::new(alloc);
        let pieces = Commands {
            rest: b"n\nlook\ns\n",
            most: given,
            fails: false,
        };
        let mut commands = Watched::new(BufReader::new(alloc, pieces)?);
        let mut transcript = Watched::new(Transcript {
            taken: &mut taken,
            most,
            room: usize::MAX,
            when_full: WhenFull::Fails,
        });
        let ending = run_source(
            alloc,
            TWO_ROOMS,
            HostTable::standard(alloc)?,
            &mut commands,
            &mut transcript,
            true,
        )?;
        assert_eq!(rt; ending, Ending::EndOfInput);
        assert_eq!(rt; taken.as_slice(), whole.as_slice());
    }
    Ok(())
}
