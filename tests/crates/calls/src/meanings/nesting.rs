//! Lines of a body, parted by `;`, and the phrases that they are: `0 if;1 follow 2;0 otherwise;1 instead 3`.
use i7_conditions::{Line, Step, nest};
use play_meaning::tree::{Basic, Clause, Condition, Conjunction, Description, Simple};
use std::alloc::{AllocError, Global};
use world_meaning::{KindNo, Listed};

/// `in darkness`
fn dark(alloc: Global) -> Condition {
    let first = Clause {
        basic: Basic::InDarkness,
        denied: false,
    };
    Condition {
        first: Conjunction {
            first,
            rest: Vec::new(alloc),
        },
        rest: Vec::new(alloc),
    }
}

/// `things`
fn things(alloc: Global) -> Description {
    Description {
        adjectives: Listed::new(Vec::new(alloc)),
        kind: Some(KindNo::THING),
        held: None,
    }
}

/// A phrase that others don't belong to: `follow` or `instead` with the number of a rulebook.
fn simple(said: &str) -> Option<Step> {
    let (word, book) = said.split_once(' ')?;
    let follow = Simple::Follow(book.parse::<u16>().ok()?);
    match word {
        "follow" => Some(Step::Does(follow)),
        "instead" => Some(Step::Instead(follow)),
        _ => None,
    }
}

/// What a line says.
fn step(alloc: Global, said: &str) -> Option<Step> {
    match said {
        "if" => Some(Step::If(dark(alloc))),
        "otherwise if" => Some(Step::OtherwiseIf(dark(alloc))),
        "otherwise" => Some(Step::Otherwise),
        "repeat" => Some(Step::Repeat(things(alloc))),
        _ => simple(said),
    }
}

/// The line that a text is: how deep it stands, and what it says.
fn line(alloc: Global, text: &str) -> Option<Line> {
    let (depth, said) = text.split_once(' ')?;
    let depth = depth.parse::<usize>().ok()?;
    let step = step(alloc, said)?;
    Some(Line { depth, step })
}

/// The lines of a text, if each can be read.
fn lines(alloc: Global, text: &str) -> Result<Option<Vec<Line>>, AllocError> {
    let mut lines = Vec::new(alloc);
    for said in text.split_terminator(';') {
        let Some(line) = line(alloc, said) else {
            return Ok(None);
        };
        lines.push(line)?;
    }
    Ok(Some(lines))
}

/// The body that lines are.
pub fn nested(alloc: Global, text: &str) -> Result<String, AllocError> {
    let Some(lines) = lines(alloc, text)? else {
        return format!(in alloc; "no lines");
    };
    let body = nest(alloc, lines)?;
    format!(in alloc; "{body:?}")
}
