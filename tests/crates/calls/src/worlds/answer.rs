//! What a call of a row answers, and how it is printed: objects by their names, texts in quotation marks.
use crate::joined::add;
use crate::worlds::names::{OBJECTS, relation_name};
use object_tree::Chain;
use play_meaning::SceneNow;
use std::alloc::{AllocError, Global};
use world_meaning::{Article, ObjNo, Place};

/// What a call answers.
#[derive(Clone, Copy)]
pub enum Answer<'a> {
    Truth(bool),
    Number(i64),
    Article(Article),
    /// The number of a code, if there is one.
    Code(Option<u16>),
    Object(Option<ObjNo>),
    Place(Option<Place>),
    /// Whether a scene happens, and whether it has begun.
    Scene(SceneNow),
    Text(Option<&'a [u8]>),
    /// A value of a kind of value by its number, if there is one.
    Value(Option<u8>),
}

/// The name of an object, or its number where it has none.
fn object_told(alloc: Global, object: ObjNo) -> Result<String, AllocError> {
    match OBJECTS.get(usize::from(object.get())) {
        Some(name) => format!(in alloc; "{name}"),
        None => format!(in alloc; "{}", object.get()),
    }
}

/// How a thing is held, and by what.
fn place_told(alloc: Global, place: Place) -> Result<String, AllocError> {
    let relation = relation_name(place.relation);
    let holder = object_told(alloc, place.holder)?;
    format!(in alloc; "{relation} {holder}")
}

/// A text as it is printed, or its bytes where these are no text.
fn text_told(alloc: Global, text: &[u8]) -> Result<String, AllocError> {
    match str::from_utf8(text) {
        Ok(text) => format!(in alloc; "\"{text}\""),
        Err(_) => format!(in alloc; "{text:?}"),
    }
}

/// What is listed, or `nothing`.
pub fn listed(alloc: Global, line: String) -> Result<String, AllocError> {
    if line.is_empty() {
        format!(in alloc; "nothing")
    } else {
        Ok(line)
    }
}

/// Objects, in order.
pub fn objects_told(alloc: Global, objects: &[ObjNo]) -> Result<String, AllocError> {
    let mut line = String::new(alloc);
    for object in objects {
        add(&mut line, ", ", object_told(alloc, *object)?.as_str())?;
    }
    listed(alloc, line)
}

/// Steps of a chain, in order.
pub fn chain_told(alloc: Global, chain: Chain<'_>) -> Result<String, AllocError> {
    let mut line = String::new(alloc);
    for step in chain {
        add(&mut line, ", ", place_told(alloc, step)?.as_str())?;
    }
    listed(alloc, line)
}

fn none(alloc: Global) -> Result<String, AllocError> {
    format!(in alloc; "none")
}

/// The number of a code, if there is one.
pub fn code_told(alloc: Global, code: Option<u16>) -> Result<String, AllocError> {
    match code {
        Some(number) => format!(in alloc; "{number}"),
        None => none(alloc),
    }
}

/// The name of an object, if there is one.
fn found_told(alloc: Global, object: Option<ObjNo>) -> Result<String, AllocError> {
    match object {
        Some(object) => object_told(alloc, object),
        None => none(alloc),
    }
}

/// How a thing is held, if it is.
fn holder_told(alloc: Global, place: Option<Place>) -> Result<String, AllocError> {
    match place {
        Some(place) => place_told(alloc, place),
        None => format!(in alloc; "nowhere"),
    }
}

/// A text, if there is one.
fn given_told(alloc: Global, text: Option<&[u8]>) -> Result<String, AllocError> {
    match text {
        Some(text) => text_told(alloc, text),
        None => none(alloc),
    }
}

/// Whether it is so.
pub fn truth_told(alloc: Global, truth: bool) -> Result<String, AllocError> {
    format!(in alloc; "{truth}")
}

/// An answer as it is printed.
pub fn printed(alloc: Global, answer: &Answer<'_>) -> Result<String, AllocError> {
    match answer {
        Answer::Truth(truth) => truth_told(alloc, *truth),
        Answer::Number(number) => format!(in alloc; "{number}"),
        Answer::Article(article) => format!(in alloc; "{article:?}"),
        Answer::Code(code) => code_told(alloc, *code),
        Answer::Object(object) => found_told(alloc, *object),
        Answer::Place(place) => holder_told(alloc, *place),
        Answer::Scene(now) => format!(in alloc; "{} {}", now.happens, now.has_begun),
        Answer::Text(text) => given_told(alloc, *text),
        Answer::Value(value) => code_told(alloc, value.map(|value| u16::from(value))),
    }
}
