//! Makes calls of the libraries, words in and answers out: the program that the scripts of tests/ compare with what is told by hand
//! and with plain readers, and time. Its first word is the sort of the calls, and the words behind it are those of the sort.

mod asked;
mod codes;
mod digits;
mod joined;
mod meanings;
mod named;
mod no_action;
mod printing;
mod readings;
mod rules;
mod stories;
mod worlds;

use asked::not_asked;
use std::process::ExitCode;
use std::{env, io};

/// What calls are about.
#[derive(Clone, Copy)]
enum Sort {
    Codes,
    Meanings,
    Readings,
    Rules,
    Stories,
    Worlds,
}

impl Sort {
    /// The sort of this name.
    fn from_name(name: &str) -> Option<Sort> {
        match name {
            "codes" => Some(Sort::Codes),
            "meanings" => Some(Sort::Meanings),
            "readings" => Some(Sort::Readings),
            "rules" => Some(Sort::Rules),
            "stories" => Some(Sort::Stories),
            "worlds" => Some(Sort::Worlds),
            _ => None,
        }
    }
}

/// Makes the calls that the program's words ask for.
fn call(rt: &HostRuntime) -> io::Result<()> {
    let words: Vec<String> = env::args(rt)?.collect(rt.alloc())?;
    let [_, name, words @ ..] = words.as_slice() else {
        return Err(not_asked());
    };
    match Sort::from_name(name.as_str()) {
        Some(Sort::Codes) => codes::call(rt, words),
        Some(Sort::Meanings) => meanings::call(rt, words),
        Some(Sort::Readings) => readings::call(rt, words),
        Some(Sort::Rules) => rules::call(rt, words),
        Some(Sort::Stories) => stories::call(rt, words),
        Some(Sort::Worlds) => worlds::call(rt, words),
        None => Err(not_asked()),
    }
}

/// The status is 0, or 4 where the words ask for nothing, there is no such file, no memory, or no room for the answers.
fn main(rt: HostRuntime) -> ExitCode {
    match call(&rt) {
        Ok(()) => ExitCode::SUCCESS,
        Err(_) => ExitCode::from(4),
    }
}
