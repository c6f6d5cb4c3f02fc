//! Does the bodies of rules, and prints what they come to. The words are a form and a file. `bodies` does the body of the one rule of
//! each source in the world of the source's story, or says why the source is refused; `codes` prints the codes of the story, `rules`
//! its rules; `trees` prints what the one rule means before it becomes code; `names` prints what a name of a source stands for;
//! behind each of these sources stands a record separator (U+001E). `runs` does bodies that are told by their codes; `spelling`
//! prints the instructions that stand in front of bytes, a line of hexadecimal digits each.
mod codes;
mod facts;
mod naming;
mod playing;
mod reading;
mod runner;
mod runs;
mod spelling;
mod stage;
mod told_code;
mod trees;
mod unplayed;

use crate::asked::{not_asked, text_named};
use crate::digits::bytes_told;
use crate::printing::print_each;
use naming::names_told;
use playing::{told, told_codes, told_rules};
use runs::Bench;
use spelling::spelling_told;
use std::alloc::{AllocError, Global};
use std::io::{self, Write};
use trees::told_trees;

/// What is printed of a source.
#[derive(Clone, Copy)]
enum SourceForm {
    Bodies,
    Codes,
    Names,
    Rules,
    Trees,
}

/// What is printed of a file.
#[derive(Clone, Copy)]
enum Form {
    Sources(SourceForm),
    Runs,
    Spelling,
}

impl Form {
    /// The form of this name.
    fn from_name(name: &str) -> Option<Form> {
        match name {
            "bodies" => Some(Form::Sources(SourceForm::Bodies)),
            "codes" => Some(Form::Sources(SourceForm::Codes)),
            "names" => Some(Form::Sources(SourceForm::Names)),
            "rules" => Some(Form::Sources(SourceForm::Rules)),
            "trees" => Some(Form::Sources(SourceForm::Trees)),
            "runs" => Some(Form::Runs),
            "spelling" => Some(Form::Spelling),
            _ => None,
        }
    }
}

/// What a source comes to.
fn source_told(alloc: Global, form: SourceForm, source: &str) -> Result<String, AllocError> {
    match form {
        SourceForm::Bodies => told(alloc, source),
        SourceForm::Codes => told_codes(alloc, source),
        SourceForm::Names => names_told(alloc, source),
        SourceForm::Rules => told_rules(alloc, source),
        SourceForm::Trees => told_trees(alloc, source),
    }
}

/// Prints what runs come to.
fn print_runs(rt: &HostRuntime, told: &str) -> io::Result<()> {
    let Some((source, behind)) = told.split_once('\u{1f}') else {
        return Err(not_asked());
    };
    let Some((strings, lines)) = behind.split_once('\u{1f}') else {
        return Err(not_asked());
    };
    match Bench::of(rt.alloc(), source, strings) {
        Ok(bench) => print_each(rt, lines, '\n', |line| bench.told(rt.alloc(), line)),
        Err(unplayed) => writeln!(rt.stdout(), "{unplayed}"),
    }
}

/// Prints what is asked of the file.
pub fn call(rt: &HostRuntime, words: &[String]) -> io::Result<()> {
    let [name, file @ ..] = words else {
        return Err(not_asked());
    };
    let Some(form) = Form::from_name(name.as_str()) else {
        return Err(not_asked());
    };
    let text = text_named(rt, file)?;
    let text = text.as_str();
    match form {
        Form::Sources(form) => print_each(rt, text, '\u{1e}', |source| {
            source_told(rt.alloc(), form, source)
        }),
        Form::Runs => print_runs(rt, text),
        Form::Spelling => print_each(rt, text, '\n', |digits| {
            bytes_told(rt.alloc(), digits, |bytes| spelling_told(rt.alloc(), bytes))
        }),
    }
}
