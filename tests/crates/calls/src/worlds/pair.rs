//! Two worlds of one story, of which one is called.
use play_meaning::Ground;
use std::alloc::{AllocError, Global};
use std::mem;
use std::rc::Rc;
use story_format::Story;
use world_meaning::ObjNo;
use world_store::{Mark, World};

/// The world that is called, and the other: at first another beginning, and behind a copy what was copied; and the marks to which
/// worlds were not yet turned back.
#[derive(Drop)]
pub struct Pair {
    pub here: World,
    other: World,
    marks: Vec<Mark>,
}

/// Whether two worlds say the same of an object: where it is, its number, its value, and its properties.
fn agree_on(world: &World, other: &World, object: ObjNo) -> bool {
    world.holder(object) == other.holder(object)
        && world.number(object, 0) == other.number(object, 0)
        && world.value(object, 0) == other.value(object, 0)
        && (0..11u8).all(|property| world.flag(object, property) == other.flag(object, property))
}

/// Whether two worlds say the same of all objects.
fn agree_on_all(world: &World, other: &World) -> bool {
    (0..world.object_count())
        .map(ObjNo::new)
        .all(|object| agree_on(world, other, object))
}

/// Whether two worlds say the same of all that these stories have: of their objects, two variables, two scenes, the turn count and the
/// ending.
pub fn are_same(world: &World, other: &World) -> bool {
    agree_on_all(world, other)
        && (0..2u8).all(|variable| world.variable(variable) == other.variable(variable))
        && (0..2u8).all(|scene| world.scene(scene) == other.scene(scene))
        && world.turns() == other.turns()
        && world.ended() == other.ended()
}

/// Turns a world back to a mark, where that is in its log, and answers whether it is.
pub fn reverted(world: &mut World, mark: Mark) -> bool {
    let is_there = mark.is_upto(world.mark());
    if is_there {
        world.revert(mark);
    }
    is_there
}

impl Pair {
    /// Two worlds as a story begins.
    pub fn begun(alloc: Global, story: &Rc<Story>) -> Result<Pair, AllocError> {
        Ok(Pair {
            here: World::start(alloc, story)?,
            other: World::start(alloc, story)?,
            marks: Vec::new(alloc),
        })
    }

    /// Copies the world that is called: from now on the copy is.
    pub fn copy(&mut self, alloc: Global) -> Result<(), AllocError> {
        let copy = self.here.copy(alloc)?;
        self.other = mem::replace(&mut self.here, copy);
        Ok(())
    }

    /// From now on the other world is called.
    pub fn swap(&mut self) {
        mem::swap(&mut self.here, &mut self.other);
    }

    /// Whether the worlds say the same of all objects.
    pub fn agree(&self) -> bool {
        agree_on_all(&self.here, &self.other)
    }

    /// Marks the present place of the log of the world that is called.
    pub fn mark(&mut self) -> Result<(), AllocError> {
        let mark = self.here.mark();
        Ok(self.marks.push(mark)?)
    }

    /// Turns the world that is called back to the last of the marks that are left, and answers whether there was one in its log.
    pub fn revert(&mut self) -> bool {
        match self.marks.pop() {
            Some(mark) => reverted(&mut self.here, mark),
            None => false,
        }
    }
}
