//! What commands mean, where no question is open and where one is.
use crate::commands::shelf::Shelf;
use command_parser::{Parts, Question, Reading, Said, narrow, read_command, split};
use std::alloc::{AllocError, Global};
use std::test::Fail;

/// What a reading comes to: the code of what is said; or of what is asked, 100 and how many candidates there are; or of an
/// action 1,000 times its number, 10 times its noun and its second noun, 9 for none; or of an action on all things 200 and its
/// number.
fn code(reading: &Reading) -> usize {
    match reading {
        Reading::Says(said) => match *said {
            Said::Empty => 1,
            Said::TooLong => 2,
            Said::NoVerb => 3,
            Said::NotSeen => 4,
            Said::NotUnderstood => 5,
            Said::NoneOfAll => 8,
        },
        Reading::Asks(question) => 100 + question.candidates().len(),
        Reading::Acts(now) => {
            let noun = now.noun.map_or(9, |object| object.get() as usize);
            let second = now.second.map_or(9, |object| object.get() as usize);
            now.action.get() as usize * 1000 + noun * 10 + second
        }
        Reading::ActsAll(action) => 200 + action.get() as usize,
        Reading::Undo => 6,
        Reading::Quit => 7,
    }
}

/// The code of the first command of a line, while a question is open or none; of a line without a command, or of one that is
/// too long, that of what is said to it.
fn line_code(alloc: Global, line: &[u8], question: Option<&Question>) -> Result<usize, AllocError> {
    match split(line) {
        Parts::Blank => Ok(code(&Reading::Says(Said::Empty))),
        Parts::Overlong => Ok(code(&Reading::Says(Said::TooLong))),
        Parts::Commands(command, _) => match question {
            None => Ok(code(&read_command(alloc, &command, &Shelf)?)),
            Some(question) => Ok(code(&narrow(alloc, &command, question, &Shelf)?)),
        },
    }
}

#[test]
fn commands_are_read(rt: HostRuntime) -> Result<(), Fail> {
    let rows: [(&[u8], usize); 28] = [
        (b"", 1),
        (b" \t ", 1),
        (b"undo", 6),
        (b"Quit", 7),
        (b"q", 7),
        (b"xyzzy", 3),
        (b"take", 5),
        (b"take the RED ball", 2019),
        (b"take ball", 102),
        (b"take the", 4),
        (b"take the a ball", 4),
        (b"take coin", 4),
        (b"take box", 2039),
        (b"put red ball on box", 4013),
        (b"put ball on box", 102),
        (b"put red on", 5),
        (b"north", 9009),
        (b"the n", 9009),
        (b"take red blue", 7012),
        (b"take all", 202),
        (b"take everything", 202),
        (b"TAKE ALL", 202),
        (b"take the all", 4),
        (b"take all box", 4),
        (b"put all on box", 4),
        (b"take box. take coin", 2039),
        (b"undo then take all", 6),
        (
            b"a a a a a a a a a a a a a a a a a a a a a a a a a a a a a a a a a",
            2,
        ),
    ];
    for (line, wanted) in rows {
        assert_eq!(rt; line_code(rt.alloc(), line, None)?, wanted, "{wanted}");
    }
    Ok(())
}

/// The question that the first command of a line asks.
fn asked(alloc: Global, line: &[u8]) -> Result<Option<Question>, Fail> {
    let Parts::Commands(command, _) = split(line) else {
        return Ok(None);
    };
    match read_command(alloc, &command, &Shelf)? {
        Reading::Asks(question) => Ok(Some(question)),
        _ => Ok(None),
    }
}

#[test]
fn questions_are_answered(rt: HostRuntime) -> Result<(), Fail> {
    let Some(question) = asked(rt.alloc(), b"put ball on box")? else {
        assert!(rt; false);
        return Ok(());
    };
    let rows: [(&[u8], usize); 9] = [
        (b"red", 4013),
        (b"the blue one", 3),
        (b"Blue", 4023),
        (b"ball", 102),
        (b"box", 3),
        (b"take box", 2039),
        (b"all", 3),
        (b"take all", 202),
        (b"", 1),
    ];
    for (line, wanted) in rows {
        assert_eq!(rt;
            line_code(rt.alloc(), line, Some(&question))?,
            wanted,
            "{wanted}"
        );
    }
    Ok(())
}
