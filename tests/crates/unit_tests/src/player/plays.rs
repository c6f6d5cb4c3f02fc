//! Whole plays: of a source and of a story file, and what is played at a limit and one past it.
use sample_stories::TWO_ROOMS;
use source_player::{SourceRunFault, play_bytes, run_story};
use standard_rules::HostTable;
use std::alloc::{AllocError, Global};
use std::test::Fail;
use story_file::{LoadFault, compile};
use story_player::Watched;
use world_meaning::{Ending, Fault, FaultCode};

#[test]
fn a_source_is_played_over_bytes(rt: HostRuntime) -> Result<(), Fail> {
    let alloc = rt.alloc();
    let play = play_bytes(
        alloc,
        TWO_ROOMS,
        HostTable::standard(alloc)?,
        b"n\nq\nx\n",
        true,
    )?;
    assert_eq!(rt; play.ending, Ending::Quit);
    let transcript = b"Hall\nA bare hall.\n\n>n\nGarden\n\n>q\n";
    assert_eq!(rt; play.transcript.as_slice(), transcript.as_slice());
    let refused = play_bytes(alloc, b"Hello.", HostTable::standard(alloc)?, b"", false);
    let fault = Fault {
        code: FaultCode::NotUnderstood,
        line: 1,
    };
    assert_eq!(rt; refused.err(), Some(SourceRunFault::Source(fault)));
    Ok(())
}

#[test]
fn a_story_file_is_played(rt: HostRuntime) -> Result<(), Fail> {
    let alloc = rt.alloc();
    let story = compile(alloc, TWO_ROOMS)?;
    let mut commands = Watched::new(b"s\nn\n".as_slice());
    let mut transcript = Watched::new(Vec::new(alloc));
    let ending = run_story(
        alloc,
        story.as_slice(),
        HostTable::standard(alloc)?,
        &mut commands,
        &mut transcript,
        false,
    )?;
    assert_eq!(rt; ending, Ending::EndOfInput);
    let written = b"Hall\nA bare hall.\n\n>You can't go that way.\n\n>Garden\n\n>";
    assert_eq!(rt; transcript.into_inner().as_slice(), written.as_slice());
    let mut nothing = Watched::new(b"".as_slice());
    let mut unwritten = Watched::new(Vec::new(alloc));
    let fault = run_story(
        alloc,
        b"I7S",
        HostTable::standard(alloc)?,
        &mut nothing,
        &mut unwritten,
        false,
    )
    .err();
    assert_eq!(rt; fault, Some(SourceRunFault::Story(LoadFault::BadMagic)));
    assert!(rt; unwritten.into_inner().is_empty());
    Ok(())
}

/// A story that says so many bytes in each turn, and ends saying so many more, if any.
fn talkative(alloc: Global, said: usize, ending: usize) -> Result<Vec<u8>, AllocError> {
    let mut source = Vec::new(alloc);
    source.extend_from_slice(b"The Hall is a room.\n\nEvery turn:\n\tsay \"")?;
    for _ in 0..said {
        source.push(b'a')?;
    }
    source.push(b'"')?;
    if ending > 0 {
        source.extend_from_slice(b";\n\tend the story saying \"")?;
        for _ in 0..ending {
            source.push(b'b')?;
        }
        source.push(b'"')?;
    }
    source.push(b'.')?;
    Ok(source)
}

#[test]
fn long_texts_of_rules_are_said_up_to_their_limit(rt: HostRuntime) -> Result<(), Fail> {
    let alloc = rt.alloc();
    // the opening and a prompt are seven bytes, the room's name five; behind the text stands a break, and then a prompt, or
    // the closing line, which is ten bytes longer than what it says
    for (said, ending, whole, ends) in [
        (33_000usize, 0usize, 33_015usize, Ending::EndOfInput),
        (65_535, 0, 65_550, Ending::EndOfInput),
        (1, 40_000, 40_024, Ending::Story),
        (65_535, 65_535, 131_093, Ending::Story),
    ] {
        let source = talkative(alloc, said, ending)?;
        let hosts = HostTable::standard(alloc)?;
        let play = play_bytes(alloc, source.as_slice(), hosts, b"look\n", false)?;
        assert_eq!(rt; play.transcript.as_slice().len(), whole, "{said} {ending}");
        assert_eq!(rt; play.ending, ends);
    }
    Ok(())
}

/// A room of a name of so many bytes, with a description of so many.
fn source_of(alloc: Global, name: usize, text: usize) -> Result<Vec<u8>, AllocError> {
    let mut source = Vec::new(alloc);
    for _ in 0..name {
        source.push(b'x')?;
    }
    source.extend_from_slice(b" is a room. \"")?;
    for _ in 0..text {
        source.push(b'y')?;
    }
    source.push(b'"')?;
    Ok(source)
}

/// How many bytes the opening of such a source has, or its refusal.
fn opening_of(alloc: Global, name: usize, text: usize) -> Result<Result<usize, Fault>, Fail> {
    let source = source_of(alloc, name, text)?;
    match play_bytes(
        alloc,
        source.as_slice(),
        HostTable::standard(alloc)?,
        b"",
        false,
    ) {
        Ok(play) => Ok(Ok(play.transcript.as_slice().len())),
        Err(SourceRunFault::Source(fault)) => Ok(Err(fault)),
        Err(fault) => Err(Fail::from(fault)),
    }
}

#[test]
fn long_names_and_texts_are_played_up_to_their_limit(rt: HostRuntime) -> Result<(), Fail> {
    let alloc = rt.alloc();
    let too_many = Fault {
        code: FaultCode::TooMany,
        line: 1,
    };
    // behind the name and the text stand a break each, and then a break and a prompt
    for (name, text, whole) in [
        (1usize, 33_000usize, 33_005usize),
        (1, 40_000, 40_005),
        (33_000, 1, 33_005),
        (60_000, 1, 60_005),
        (1, 65_535, 65_540),
        (65_535, 1, 65_540),
        (65_535, 65_535, 131_074),
    ] {
        assert_eq!(rt; opening_of(alloc, name, text)?, Ok(whole), "{name} {text}");
    }
    assert_eq!(rt; opening_of(alloc, 1, 65_536)?, Err(too_many));
    assert_eq!(rt; opening_of(alloc, 65_536, 1)?, Err(too_many));
    Ok(())
}
