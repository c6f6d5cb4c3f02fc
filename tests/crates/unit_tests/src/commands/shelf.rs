//! A small grammar, told in place.

use command_grammar::Token;
use command_parser::Commands;
use play_meaning::ActNo;
use world_meaning::{KindNo, ObjNo, is_spelled};

/// A direction, two balls, two boxes that are named alike and a coin out of sight.
pub struct Shelf;

impl Commands for Shelf {
    // what the trait's contracts name, which no test reads
    ghost grammar = { ? };

    ghost sees = { ? };

    fn object_count(&self) -> u16 {
        6
    }

    fn is_of(&self, object: ObjNo, kind: KindNo) -> bool {
        match object.get() {
            0 => kind.get() == 2,
            _ => kind.get() == 0,
        }
    }

    fn visible(&self, object: ObjNo) -> bool {
        object.get() < 5
    }

    fn has_word(&self, object: ObjNo, word: &[u8]) -> bool {
        match object.get() {
            0 => is_spelled(word, b"north") || is_spelled(word, b"n"),
            1 => is_spelled(word, b"red") || is_spelled(word, b"ball"),
            2 => is_spelled(word, b"blue") || is_spelled(word, b"ball"),
            3 => is_spelled(word, b"box"),
            4 => is_spelled(word, b"box"),
            5 => is_spelled(word, b"coin"),
            _ => false,
        }
    }

    fn word_count(&self, object: ObjNo) -> usize {
        match object.get() {
            0 => 2,
            1 => 2,
            2 => 2,
            3 => 1,
            4 => 1,
            5 => 1,
            _ => 0,
        }
    }

    fn word(&self, object: ObjNo, place: usize) -> &[u8] {
        match object.get() {
            0 => one_of(b"north", b"n", place),
            1 => one_of(b"red", b"ball", place),
            2 => one_of(b"blue", b"ball", place),
            3 => only(b"box", place),
            4 => only(b"box", place),
            5 => only(b"coin", place),
            _ => b"",
        }
    }

    fn line_count(&self) -> u16 {
        4
    }

    fn action(&self, line: u16) -> ActNo {
        match line {
            0 => ActNo::new(2),
            1 => ActNo::new(4),
            2 => ActNo::new(9),
            3 => ActNo::new(7),
            _ => ActNo::NONE,
        }
    }

    fn token_count(&self, line: u16) -> usize {
        match line {
            0 => 2,
            1 => 4,
            2 => 1,
            3 => 3,
            _ => 0,
        }
    }

    fn token(&self, line: u16, place: usize) -> Option<Token<'_>> {
        match line {
            0 => match place {
                0 => Some(Token::Word(b"take")),
                1 => Some(Token::Something),
                _ => None,
            },
            1 => match place {
                0 => Some(Token::Word(b"put")),
                1 => Some(Token::Something),
                2 => Some(Token::Word(b"on")),
                3 => Some(Token::Something),
                _ => None,
            },
            2 => match place {
                0 => Some(Token::Direction),
                _ => None,
            },
            3 => match place {
                0 => Some(Token::Word(b"take")),
                1 => Some(Token::Something),
                2 => Some(Token::Something),
                _ => None,
            },
            _ => None,
        }
    }
}

/// The first word or the second, by its place.
fn one_of(first: &'static [u8], second: &'static [u8], place: usize) -> &'static [u8] {
    match place {
        0 => first,
        1 => second,
        _ => b"",
    }
}

/// The one word, at its place.
fn only(word: &'static [u8], place: usize) -> &'static [u8] {
    match place {
        0 => word,
        _ => b"",
    }
}
