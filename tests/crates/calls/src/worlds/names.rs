//! The words by which rows name objects, kinds, properties and how things are held; a number stands for itself.
use world_meaning::Rel;

/// The objects of the furnished story, by number.
pub const OBJECTS: [&str; 23] = [
    "player",
    "north",
    "northeast",
    "northwest",
    "south",
    "southeast",
    "southwest",
    "east",
    "west",
    "up",
    "down",
    "inside",
    "outside",
    "hall",
    "cave",
    "chest",
    "jar",
    "coin",
    "gem",
    "sack",
    "lamp",
    "gate",
    "table",
];

/// The built-in kinds, by number.
pub const KINDS: [&str; 10] = [
    "thing",
    "room",
    "direction",
    "door",
    "container",
    "supporter",
    "person",
    "device",
    "man",
    "woman",
];

/// The built-in either-or properties, by number, each by one word.
pub const PROPERTIES: [&str; 11] = [
    "open",
    "openable",
    "transparent",
    "lit",
    "lighted",
    "scenery",
    "fixed",
    "wearable",
    "described",
    "switched",
    "visited",
];

/// The number properties of the furnished story: that of things.
pub const NUMBERS: [&str; 1] = ["weight"];

/// Where a word stands among names, or the number that it says.
pub fn number_in(names: &[&str], word: &str) -> Option<u16> {
    match names.iter().position(|name| *name == word) {
        Some(place) => u16::try_from(place).ok(),
        None => word.parse::<u16>().ok(),
    }
}

/// How things are held that are held so.
pub fn relation_of(word: &str) -> Option<Rel> {
    match word {
        "in" => Some(Rel::In),
        "on" => Some(Rel::On),
        "carried" => Some(Rel::Carried),
        "worn" => Some(Rel::Worn),
        "part" => Some(Rel::Part),
        _ => None,
    }
}

/// The word for how a thing is held.
pub fn relation_name(relation: Rel) -> &'static str {
    match relation {
        Rel::In => "in",
        Rel::On => "on",
        Rel::Carried => "carried",
        Rel::Worn => "worn",
        Rel::Part => "part",
    }
}
