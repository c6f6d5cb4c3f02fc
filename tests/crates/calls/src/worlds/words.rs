//! The words of a call, read one by one.
use crate::worlds::names::{KINDS, NUMBERS, OBJECTS, PROPERTIES, number_in, relation_of};
use world_meaning::{KindNo, ObjNo, Rel};

/// The words that are left of a call.
#[derive(Drop)]
pub struct Words<'a> {
    left: &'a str,
}

/// The first word of a text, and what is behind it.
fn first_of(text: &str) -> (&str, &str) {
    match text.split_once(' ') {
        Some(parts) => parts,
        None => (text, ""),
    }
}

/// What is true by this word.
fn truth_of(word: &str) -> Option<bool> {
    match word {
        "true" => Some(true),
        "false" => Some(false),
        _ => None,
    }
}

/// The number of what a word names, where it is that of a kind, a property, a variable or a scene.
fn small_in(names: &[&str], word: &str) -> Option<u8> {
    u8::try_from(number_in(names, word)?).ok()
}

impl<'a> Words<'a> {
    /// The words of a call.
    pub fn of(call: &'a str) -> Words<'a> {
        Words { left: call }
    }

    /// Whether no word is left.
    pub fn are_read(&self) -> bool {
        self.left.is_empty()
    }

    /// All that is left.
    pub fn rest(&mut self) -> &'a str {
        let rest = self.left;
        self.left = "";
        rest
    }

    /// The next word, which is empty where none is left.
    pub fn word(&mut self) -> &'a str {
        let (word, left) = first_of(self.left);
        self.left = left;
        word
    }

    pub fn object(&mut self) -> Option<ObjNo> {
        Some(ObjNo::new(number_in(&OBJECTS, self.word())?))
    }

    pub fn kind(&mut self) -> Option<KindNo> {
        Some(KindNo::new(small_in(&KINDS, self.word())?))
    }

    pub fn relation(&mut self) -> Option<Rel> {
        relation_of(self.word())
    }

    /// The number of an either-or property.
    pub fn property(&mut self) -> Option<u8> {
        small_in(&PROPERTIES, self.word())
    }

    /// The number of a number property.
    pub fn measure(&mut self) -> Option<u8> {
        small_in(&NUMBERS, self.word())
    }

    /// The number of a variable or a scene.
    pub fn place(&mut self) -> Option<u8> {
        self.word().parse::<u8>().ok()
    }

    /// The number of a string.
    pub fn string(&mut self) -> Option<u16> {
        self.word().parse::<u16>().ok()
    }

    /// A value of a number property or a variable.
    pub fn value(&mut self) -> Option<i32> {
        self.word().parse::<i32>().ok()
    }

    pub fn truth(&mut self) -> Option<bool> {
        truth_of(self.word())
    }
}
