//! Calls that change a ground, by their words.
use crate::worlds::words::Words;
use play_meaning::{Change, GroundMut, SceneNow, WorldFault};
use std::alloc::Global;
use world_meaning::TextBytes;

/// Where a scene stands of which two words tell whether it happens and whether it has begun.
fn scene_now(words: &mut Words<'_>) -> Option<SceneNow> {
    Some(SceneNow {
        happens: words.truth()?,
        has_begun: words.truth()?,
    })
}

/// The change that a call makes; none where there is no such call, it has other words, or there is no memory for its text.
pub fn change_of(alloc: Global, call: &str, words: &mut Words<'_>) -> Option<Change> {
    Some(match call {
        "set_flag" => Change::SetFlag {
            object: words.object()?,
            property: words.property()?,
            value: words.truth()?,
        },
        "set_number" => Change::SetNumber {
            object: words.object()?,
            property: words.measure()?,
            value: words.value()?,
        },
        "set_value" => Change::SetValue {
            object: words.object()?,
            kind: words.place()?,
            value: words.place()?,
        },
        "set_variable" => Change::SetVariable {
            variable: words.place()?,
            value: words.value()?,
        },
        "set_scene" => Change::SetScene {
            scene: words.place()?,
            now: scene_now(words)?,
        },
        "put" => Change::Put {
            object: words.object()?,
            relation: words.relation()?,
            holder: words.object()?,
        },
        "take_out" => Change::TakeOut(words.object()?),
        "end_story" => Change::EndStory(TextBytes::copied(alloc, words.rest().as_bytes()).ok()?),
        _ => return None,
    })
}

/// Makes a change by the ground's own call for it, and answers what that answers.
pub fn changed<G: GroundMut>(ground: &mut G, change: Change) -> Result<(), WorldFault> {
    match change {
        Change::SetFlag {
            object,
            property,
            value,
        } => ground.set_flag(object, property, value),
        Change::SetNumber {
            object,
            property,
            value,
        } => ground.set_number(object, property, value),
        Change::SetValue {
            object,
            kind,
            value,
        } => ground.set_value(object, kind, value),
        Change::SetVariable { variable, value } => ground.set_variable(variable, value),
        Change::SetScene { scene, now } => ground.set_scene(scene, now),
        Change::Put {
            object,
            relation,
            holder,
        } => ground.put(object, relation, holder),
        Change::TakeOut(object) => ground.take_out(object),
        Change::EndStory(text) => ground.end_story(text),
    }
}
