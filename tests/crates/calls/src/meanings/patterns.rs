//! Patterns, and places, by their words.

use crate::meanings::actions::actions;
use crate::meanings::scene::words;
use i7_conditions::Scope;
use i7_patterns::{Asked, pattern_of, place_of};
use play_meaning::tree::{Aspect, Pattern};
use std::alloc::{AllocError, Global};
use world_meaning::{Article, Exits, KindNo, Listed, Object, TextBytes, Way, built_in_parents};

/// The kinds of the objects that rows speak of, by number: the player, two directions, two rooms, things.
const KINDS_OF_OBJECTS: [KindNo; 8] = [
    KindNo::PERSON,
    KindNo::DIRECTION,
    KindNo::DIRECTION,
    KindNo::ROOM,
    KindNo::ROOM,
    KindNo::THING,
    KindNo::THING,
    KindNo::THING,
];

/// An object of this kind.
fn object(alloc: Global, kind: KindNo) -> Result<Object, AllocError> {
    let nowhere = Way {
        room: None,
        door: None,
    };
    Ok(Object {
        kind,
        name: TextBytes::copied(alloc, b"")?,
        article: Article::None,
        description: None,
        place: None,
        exits: Exits {
            ways: [nowhere; 12],
        },
        properties: Listed::new(Vec::new(alloc)),
        numbers: Listed::new(Vec::new(alloc)),
        values: Listed::new(Vec::new(alloc)),
    })
}

/// The objects that rows speak of.
fn objects(alloc: Global) -> Result<Vec<Object>, AllocError> {
    let mut all = Vec::new(alloc);
    for kind in KINDS_OF_OBJECTS {
        all.push(object(alloc, kind)?)?;
    }
    Ok(all)
}

/// Of each kind the kind above it: a dark room is a room.
fn parents(alloc: Global) -> Result<Vec<Option<KindNo>>, AllocError> {
    let mut all = built_in_parents(alloc)?;
    all.push(Some(KindNo::ROOM))?;
    Ok(all)
}

/// An aspect as it is printed without its list's name: the kind, and the adjectives.
fn aspect(alloc: Global, aspect: &Aspect) -> Result<String, AllocError> {
    match aspect {
        Aspect::Anything => format!(in alloc; "anything"),
        Aspect::Exactly(object) => format!(in alloc; "{object:?}"),
        Aspect::OfKind(kind, adjectives) => {
            let mut line = format!(in alloc; "{kind:?}")?;
            for adjective in adjectives.as_slice() {
                line.push_str(format!(in alloc; " {adjective:?}")?.as_str())?;
            }
            Ok(line)
        }
    }
}

/// A pattern: the action, the nouns and the place.
fn printed(alloc: Global, pattern: &Pattern) -> Result<String, AllocError> {
    let action = pattern.action;
    let noun = aspect(alloc, &pattern.noun)?;
    let second = aspect(alloc, &pattern.second)?;
    let place = aspect(alloc, &pattern.place)?;
    format!(in alloc; "{action:?}; {noun}; {second}; {place}")
}

/// The pattern that words are.
pub fn pattern(alloc: Global, scope: &Scope<'_>, text: &str) -> Result<String, AllocError> {
    let actions = actions(alloc)?;
    if actions.len() > 255 {
        return format!(in alloc; "too many actions");
    }
    let parents = parents(alloc)?;
    let objects = objects(alloc)?;
    let words = words(alloc, text)?;
    match pattern_of(
        alloc,
        scope,
        actions.as_slice(),
        parents.as_slice(),
        objects.as_slice(),
        words.as_slice(),
    )? {
        Asked::Read(pattern) => printed(alloc, &pattern),
        Asked::WrongKind => format!(in alloc; "wrong kind"),
        Asked::TooMany => format!(in alloc; "too many"),
        Asked::Unread => format!(in alloc; "unread"),
    }
}

/// The place that words are.
pub fn place(alloc: Global, scope: &Scope<'_>, text: &str) -> Result<String, AllocError> {
    let parents = parents(alloc)?;
    let objects = objects(alloc)?;
    let words = words(alloc, text)?;
    match place_of(
        alloc,
        scope,
        parents.as_slice(),
        objects.as_slice(),
        words.as_slice(),
    )? {
        Asked::Read(place) => aspect(alloc, &place),
        Asked::WrongKind => format!(in alloc; "wrong kind"),
        Asked::TooMany => format!(in alloc; "too many"),
        Asked::Unread => format!(in alloc; "unread"),
    }
}
