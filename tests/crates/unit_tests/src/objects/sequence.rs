//! Ten thousand puts and takings that look random, done to a tree and to a plain map.
use crate::objects::plain::PlainMap;
use object_tree::{PutFault, Tree};
use std::test::Fail;
use world_meaning::{ObjNo, Place, Rel};

/// How many objects there are.
const COUNT: u16 = 40;

/// How often one is put or taken.
const CHANGES: u32 = 10_000;

/// The next of a sequence of numbers that look random.
fn next(number: u64) -> u64 {
    number
        .wrapping_mul(6_364_136_223_846_793_005)
        .wrapping_add(1_442_695_040_888_963_407)
}

/// A number below a bound, from the bits of a number from here on.
fn below(number: u64, shift: u32, bound: u16) -> u16 {
    let bits = ((number >> (shift % 64)) & 0xffff) as u16;
    bits.checked_rem(bound).unwrap_or(0)
}

fn relation(number: u16) -> Rel {
    match number {
        0 => Rel::In,
        1 => Rel::On,
        2 => Rel::Carried,
        3 => Rel::Worn,
        _ => Rel::Part,
    }
}

/// Does one change to both, and answers whether both told the same of it.
fn change(tree: &mut Tree, map: &mut PlainMap, seed: u64) -> bool {
    let thing = ObjNo::new(below(seed, 48, COUNT));
    if below(seed, 40, 4) == 0 {
        tree.take_out(thing);
        map.set(thing, None);
        return true;
    }
    let holder = ObjNo::new(below(seed, 32, COUNT));
    let relation = relation(below(seed, 24, 5));
    let answer = tree.put(thing, relation, holder);
    if map.is_within(thing, holder) {
        return answer == Err(PutFault::Cycle);
    }
    map.set(thing, Some(Place { relation, holder }));
    answer == Ok(())
}

/// Whether each object is where the map says.
fn agree(tree: &Tree, map: &PlainMap) -> bool {
    (0..COUNT)
        .map(ObjNo::new)
        .all(|object| tree.holder(object) == map.place(object))
}

/// Whether a holder's children are those of the map, by rising number.
fn children_agree(tree: &Tree, map: &PlainMap, holder: ObjNo) -> bool {
    let held = (0..COUNT)
        .map(ObjNo::new)
        .filter(|object| map.is_held_by(*object, holder));
    tree.children(holder).eq(held)
}

#[test]
fn trees_and_plain_maps_agree(rt: HostRuntime) -> Result<(), Fail> {
    let alloc = rt.alloc();
    let mut tree = Tree::new(alloc, COUNT)?;
    let mut map = PlainMap::new(alloc, usize::from(COUNT))?;
    let mut seed = 1;
    let mut cycles = 0u32;
    for turn in 0..CHANGES {
        seed = next(seed);
        assert!(rt; change(&mut tree, &mut map, seed), "change {turn}");
        assert!(rt; agree(&tree, &map), "change {turn}");
        let holder = ObjNo::new(below(seed, 32, COUNT));
        assert!(rt; children_agree(&tree, &map, holder), "change {turn}");
        if map.is_within(ObjNo::new(below(seed, 48, COUNT)), holder) {
            cycles = cycles.wrapping_add(1);
        }
    }
    assert!(rt; cycles > 100, "{cycles} cycles");
    Ok(())
}
