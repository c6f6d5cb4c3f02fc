//! The ground of a run: the world of a story, with the strings and the codes of descriptions that are the run's own.

use object_words::Strings;
use play_meaning::{Ground, GroundMut, SceneNow, WorldFault};
use std::alloc::{AllocError, Global};
use story_format::{door_in, way_in};
use world_meaning::{Article, KindNo, ObjNo, Place, Rel, TextBytes};
use world_store::World;

/// A story's world, and what the codes of a run name.
#[derive(Drop)]
pub struct Stage {
    world: World,
    strings: Vec<TextBytes>,
    /// The code that describes each object, by its number, where it is described.
    descriptions: Vec<Option<u16>>,
}

impl Stage {
    /// The stage of a world, with these strings and descriptions.
    pub fn new(
        alloc: Global,
        world: World,
        strings: &Strings,
        descriptions: Vec<Option<u16>>,
    ) -> Result<Stage, AllocError> {
        let mut copies = Vec::new(alloc);
        for string in strings.as_slice() {
            copies.push(TextBytes::copied(alloc, string.as_slice())?)?;
        }
        Ok(Stage {
            world,
            strings: copies,
            descriptions,
        })
    }

    /// The world as it stands.
    pub fn world(&self) -> &World {
        &self.world
    }
}

impl Ground for Stage {
    // what the trait's contracts name, which no test reads
    ghost fixed = { ? };

    ghost world = { ? };

    fn object_count(&self) -> u16 {
        self.world.story().object_count() as u16
    }

    fn name(&self, object: ObjNo) -> &[u8] {
        self.world.story().name(object)
    }

    fn article(&self, object: ObjNo) -> Article {
        self.world.story().article(object)
    }

    fn is_of(&self, object: ObjNo, kind: KindNo) -> bool {
        self.world.is_of(object, kind)
    }

    fn has_flag(&self, object: ObjNo, property: u8) -> bool {
        self.world.has_flag(object, property)
    }

    fn has_number(&self, object: ObjNo, property: u8) -> bool {
        self.world.has_number(object, property)
    }

    fn value(&self, object: ObjNo, kind: u8) -> Option<u8> {
        self.world.value(object, kind)
    }

    fn value_name(&self, kind: u8, value: u8) -> &[u8] {
        self.world
            .story()
            .value_name(usize::from(kind), usize::from(value))
    }

    fn has_description(&self, object: ObjNo) -> bool {
        self.world.story().description_code(object).is_some()
    }

    fn description(&self, object: ObjNo) -> Option<u16> {
        match self.descriptions.get(usize::from(object.get())) {
            Some(number) => *number,
            None => None,
        }
    }

    fn room_beyond(&self, room: ObjNo, direction: ObjNo) -> Option<ObjNo> {
        way_in(&self.world.story().exits(room), direction)
    }

    fn door_beyond(&self, room: ObjNo, direction: ObjNo) -> Option<ObjNo> {
        door_in(&self.world.story().exits(room), direction)
    }

    fn string(&self, string: u16) -> &[u8] {
        match self.strings.get(usize::from(string)) {
            Some(text) => text.as_slice(),
            None => &[],
        }
    }

    fn holder(&self, object: ObjNo) -> Option<Place> {
        self.world.holder(object)
    }

    fn flag(&self, object: ObjNo, property: u8) -> bool {
        self.world.flag(object, property)
    }

    fn number(&self, object: ObjNo, property: u8) -> i32 {
        self.world.number(object, property)
    }

    fn variable(&self, variable: u8) -> i32 {
        self.world.variable(variable)
    }

    fn scene(&self, scene: u8) -> SceneNow {
        self.world.scene(scene)
    }

    fn turns(&self) -> u32 {
        self.world.turns()
    }

    fn ended(&self) -> Option<&[u8]> {
        self.world.ended()
    }

    fn lit_here(&self) -> bool {
        self.world.lit_here()
    }

    fn visible(&self, object: ObjNo) -> bool {
        self.world.visible(object)
    }

    fn touchable(&self, object: ObjNo) -> bool {
        self.world.touchable(object)
    }

    fn encloses(&self, holder: ObjNo, object: ObjNo) -> bool {
        self.world.encloses(holder, object)
    }
}

impl GroundMut for Stage {
    ghost past = { ? };

    fn set_flag(&mut self, object: ObjNo, property: u8, value: bool) -> Result<(), WorldFault> {
        self.world.set_flag(object, property, value)
    }

    fn set_number(&mut self, object: ObjNo, property: u8, value: i32) -> Result<(), WorldFault> {
        self.world.set_number(object, property, value)
    }

    fn set_value(&mut self, object: ObjNo, kind: u8, value: u8) -> Result<(), WorldFault> {
        self.world.set_value(object, kind, value)
    }

    fn set_variable(&mut self, variable: u8, value: i32) -> Result<(), WorldFault> {
        self.world.set_variable(variable, value)
    }

    fn set_scene(&mut self, scene: u8, now: SceneNow) -> Result<(), WorldFault> {
        self.world.set_scene(scene, now)
    }

    fn put(&mut self, object: ObjNo, relation: Rel, holder: ObjNo) -> Result<(), WorldFault> {
        self.world.put(object, relation, holder)
    }

    fn take_out(&mut self, object: ObjNo) -> Result<(), WorldFault> {
        self.world.take_out(object)
    }

    fn end_story(&mut self, text: TextBytes) -> Result<(), WorldFault> {
        self.world.end_story(text)
    }
}
