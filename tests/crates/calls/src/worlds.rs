//! Makes calls of a story's world and of the tree of objects, and prints what each answers: what memory is refused to, what is
//! counted, and what is compared with what is told by hand. The first word is a story file, or `-` for the furnished story; each word
//! behind it is a call, and behind `--rows` comes a file of rows, a line each.
mod answer;
mod buckets;
mod calls;
mod changes;
mod names;
mod pair;
mod reads;
mod row;
mod rules;
mod stages;
mod words;

use crate::asked::not_asked;
use crate::printing::print_each;
use calls::called;
use row::row_told;
use sample_stories::FURNISHED;
use standard_rules::HostTable;
use std::io::Write;
use std::rc::Rc;
use std::{fs, io};
use story_format::{LoadFault, Story, load};
use world_store::World;

/// A story that is loaded, if it isn't refused.
fn loaded(story: Result<Story, LoadFault>) -> io::Result<Story> {
    match story {
        Ok(story) => Ok(story),
        Err(_) => Err(not_asked()),
    }
}

/// The story that is named, if it is one and there is memory for it.
fn story_of(rt: &HostRuntime, path: &str) -> io::Result<Story> {
    if path == "-" {
        return loaded(load(rt.alloc(), FURNISHED));
    }
    let bytes = fs::read(rt, path)?;
    loaded(load(rt.alloc(), bytes.as_slice()))
}

/// Makes the calls of words.
fn print_calls(
    rt: &HostRuntime,
    story: &Rc<Story>,
    world: &World,
    calls: &[String],
) -> io::Result<()> {
    let mut out = rt.stdout();
    for word in calls {
        let word = word.as_str();
        let answer = called(rt.alloc(), story, world, word);
        writeln!(out, "{word}: {answer}")?;
    }
    Ok(())
}

/// Makes the calls of the rows of a file.
fn print_rows(
    rt: &HostRuntime,
    story: &Rc<Story>,
    rules: &HostTable,
    path: &str,
) -> io::Result<()> {
    let rows = fs::read_to_string(rt, path)?;
    print_each(rt, rows.as_str(), '\n', |row| {
        row_told(rt.alloc(), story, rules, row)
    })
}

/// Makes the calls of words, and behind `--rows` those of a file.
fn print_asked(rt: &HostRuntime, story: &Rc<Story>, words: &[String]) -> io::Result<()> {
    let world = World::start(rt.alloc(), story)?;
    match words {
        [calls @ .., flag, file] if flag.as_str() == "--rows" => {
            print_calls(rt, story, &world, calls)?;
            let rules = HostTable::standard(rt.alloc())?;
            print_rows(rt, story, &rules, file.as_str())
        }
        calls => print_calls(rt, story, &world, calls),
    }
}

/// Makes the calls of a story's world, and prints what they answer.
pub fn call(rt: &HostRuntime, words: &[String]) -> io::Result<()> {
    let [story, words @ ..] = words else {
        return Err(not_asked());
    };
    let story = Rc::new(rt.alloc(), story_of(rt, story.as_str())?)?;
    print_asked(rt, &story, words)
}
