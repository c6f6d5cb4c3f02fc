//! What words are read with, one by one: `object 5 key`, `plural 4 boxes`, `repeat gem`.
use i7_conditions::Meaning;
use play_meaning::tree::Side;
use world_meaning::{KindNo, ObjNo};

/// What words are read with.
#[derive(Clone, Copy)]
pub enum Setting<'a> {
    /// A name stands for this.
    Name(Meaning, &'a str),
    /// A plural is of this kind.
    Plural(KindNo, &'a str),
    /// A repeat gives its object the name.
    Repeat(&'a str),
}

/// What a name stands for that is of this sort and number. `first` and `second` are the names of an either-or property, `valuekind`
/// that of a kind of value.
fn meaning(sort: &str, number: u8) -> Option<Meaning> {
    match sort {
        "object" => Some(Meaning::Object(ObjNo::new(u16::from(number)))),
        "kind" => Some(Meaning::Kind(KindNo::new(number))),
        "first" => Some(Meaning::Quality(number, Side::First)),
        "second" => Some(Meaning::Quality(number, Side::Second)),
        "number" => Some(Meaning::Number(number)),
        "variable" => Some(Meaning::Variable(number)),
        "scene" => Some(Meaning::Scene(number)),
        "valuekind" => Some(Meaning::ValueKind(number)),
        _ => None,
    }
}

/// A name with its sort and number.
fn numbered<'a>(sort: &str, said: &'a str) -> Option<Setting<'a>> {
    let (number, name) = said.split_once(' ')?;
    let number = number.parse::<u8>().ok()?;
    if sort == "plural" {
        return Some(Setting::Plural(KindNo::new(number), name));
    }
    Some(Setting::Name(meaning(sort, number)?, name))
}

/// A value's name, behind the number of its kind of value and its own: `0 2 pale green`.
fn valued<'a>(said: &'a str) -> Option<Setting<'a>> {
    let (kind, rest) = said.split_once(' ')?;
    let (value, name) = rest.split_once(' ')?;
    let kind = kind.parse::<u8>().ok()?;
    let value = value.parse::<u8>().ok()?;
    Some(Setting::Name(Meaning::Value(kind, value), name))
}

impl<'a> Setting<'a> {
    /// The setting that a text says.
    pub fn of(text: &'a str) -> Option<Setting<'a>> {
        let (sort, said) = text.split_once(' ')?;
        match sort {
            "repeat" => Some(Setting::Repeat(said)),
            "value" => valued(said),
            _ => numbered(sort, said),
        }
    }
}
