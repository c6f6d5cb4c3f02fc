//! Calls that read a ground or a world, by their words.
use crate::worlds::answer::{Answer, printed};
use crate::worlds::words::Words;
use play_meaning::Ground;
use std::alloc::{AllocError, Global};
use world_meaning::ObjNo;
use world_store::World;

/// What a call answers that reads what never changes of a ground.
fn fixed<'g, G: Ground>(ground: &'g G, call: &str, words: &mut Words<'_>) -> Option<Answer<'g>> {
    Some(match call {
        "object_count" => Answer::Number(i64::from(ground.object_count())),
        "name" => Answer::Text(Some(ground.name(words.object()?))),
        "article" => Answer::Article(ground.article(words.object()?)),
        "is_of" => Answer::Truth(ground.is_of(words.object()?, words.kind()?)),
        "has_flag" => Answer::Truth(ground.has_flag(words.object()?, words.property()?)),
        "has_number" => Answer::Truth(ground.has_number(words.object()?, words.measure()?)),
        "has_description" => Answer::Truth(ground.has_description(words.object()?)),
        "description" => Answer::Code(ground.description(words.object()?)),
        "room_beyond" => Answer::Object(ground.room_beyond(words.object()?, words.object()?)),
        "door_beyond" => Answer::Object(ground.door_beyond(words.object()?, words.object()?)),
        "value_name" => Answer::Text(Some(ground.value_name(words.place()?, words.place()?))),
        "string" => Answer::Text(Some(ground.string(words.string()?))),
        _ => return None,
    })
}

/// What a call answers that reads the world of a ground.
fn played<'g, G: Ground>(ground: &'g G, call: &str, words: &mut Words<'_>) -> Option<Answer<'g>> {
    Some(match call {
        "holder" => Answer::Place(ground.holder(words.object()?)),
        "flag" => Answer::Truth(ground.flag(words.object()?, words.property()?)),
        "number" => Answer::Number(i64::from(ground.number(words.object()?, words.measure()?))),
        "value" => Answer::Value(ground.value(words.object()?, words.place()?)),
        "variable" => Answer::Number(i64::from(ground.variable(words.place()?))),
        "scene" => Answer::Scene(ground.scene(words.place()?)),
        "turns" => Answer::Number(i64::from(ground.turns())),
        "ended" => Answer::Text(ground.ended()),
        "lit_here" => Answer::Truth(ground.lit_here()),
        "visible" => Answer::Truth(ground.visible(words.object()?)),
        "touchable" => Answer::Truth(ground.touchable(words.object()?)),
        "encloses" => Answer::Truth(ground.encloses(words.object()?, words.object()?)),
        _ => return None,
    })
}

/// Whether an object is visible, the light found before.
fn sees(world: &World, object: ObjNo) -> bool {
    let light = world.lit_here();
    world.visible_in(light, object)
}

/// Whether an object is touchable, the light found before.
fn reaches(world: &World, object: ObjNo) -> bool {
    let light = world.lit_here();
    world.touchable_in(light, object)
}

/// What a call answers that only a world has.
fn stored(world: &World, call: &str, words: &mut Words<'_>) -> Option<Answer<'static>> {
    Some(match call {
        "location" => Answer::Object(Some(world.location())),
        "is_so" => Answer::Truth(world.is_so(words.object()?, words.property()?)),
        "way" => Answer::Object(world.way(words.object()?)),
        "door_on_way" => Answer::Object(world.door_on_way(words.object()?)),
        "may_be_put" => Answer::Truth(world.may_be_put(
            words.object()?,
            words.relation()?,
            words.object()?,
        )),
        "visible_in" => Answer::Truth(sees(world, words.object()?)),
        "touchable_in" => Answer::Truth(reaches(world, words.object()?)),
        _ => return None,
    })
}

/// What a call answers that reads a world.
fn read<'w>(world: &'w World, call: &str, words: &mut Words<'_>) -> Option<Answer<'w>> {
    if let Some(answer) = fixed(world, call, words) {
        return Some(answer);
    }
    if let Some(answer) = played(world, call, words) {
        return Some(answer);
    }
    stored(world, call, words)
}

/// What a call answers that reads a world, as it is printed; none where there is no such call, or it has other words.
pub fn read_told(
    alloc: Global,
    world: &World,
    call: &str,
    words: &mut Words<'_>,
) -> Result<Option<String>, AllocError> {
    match read(world, call, words) {
        None => Ok(None),
        Some(answer) => {
            if words.are_read() {
                Ok(Some(printed(alloc, &answer)?))
            } else {
                Ok(None)
            }
        }
    }
}
