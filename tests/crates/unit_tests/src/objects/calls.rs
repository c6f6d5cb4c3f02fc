//! Each public call of the tree, once, with what it answers.
use object_tree::{PutFault, Tree};
use std::alloc::Global;
use std::test::Fail;
use world_meaning::{ObjNo, Place, Rel};

fn bag() -> ObjNo {
    ObjNo::new(13)
}

fn chest() -> ObjNo {
    ObjNo::new(14)
}

fn coin() -> ObjNo {
    ObjNo::new(15)
}

fn room() -> ObjNo {
    ObjNo::new(16)
}

/// An object that isn't there.
fn nowhere() -> ObjNo {
    ObjNo::new(17)
}

/// A bag in a room, a chest on the bag, and a coin that is part of the room.
fn furnished(alloc: Global) -> Result<Tree, Fail> {
    let mut tree = Tree::new(alloc, 17)?;
    tree.put(coin(), Rel::Part, room())?;
    tree.put(bag(), Rel::In, room())?;
    tree.put(chest(), Rel::On, bag())?;
    Ok(tree)
}

fn held(relation: Rel, holder: ObjNo) -> Option<Place> {
    Some(Place { relation, holder })
}

fn children(alloc: Global, tree: &Tree, holder: ObjNo) -> Result<Vec<ObjNo>, Fail> {
    Ok(tree.children(holder).collect(alloc)?)
}

#[test]
fn new_trees_hold_nothing(rt: HostRuntime) -> Result<(), Fail> {
    let tree = Tree::new(rt.alloc(), 3)?;
    for number in 0..5u16 {
        assert_eq!(rt; tree.holder(ObjNo::new(number)), None, "{number}");
    }
    assert_eq!(rt; tree.children(ObjNo::new(0)).next(), None);
    Ok(())
}

#[test]
fn things_are_where_they_were_put(rt: HostRuntime) -> Result<(), Fail> {
    let tree = furnished(rt.alloc())?;
    assert_eq!(rt; tree.holder(bag()), held(Rel::In, room()));
    assert_eq!(rt; tree.holder(chest()), held(Rel::On, bag()));
    assert_eq!(rt; tree.holder(coin()), held(Rel::Part, room()));
    assert_eq!(rt; tree.holder(room()), None);
    assert_eq!(rt; tree.holder(nowhere()), None);
    Ok(())
}

#[test]
fn children_come_by_rising_number(rt: HostRuntime) -> Result<(), Fail> {
    let alloc = rt.alloc();
    let tree = furnished(alloc)?;
    assert_eq!(rt;
        children(alloc, &tree, room())?.as_slice(),
        [bag(), coin()].as_slice()
    );
    assert_eq!(rt;
        children(alloc, &tree, bag())?.as_slice(),
        [chest()].as_slice()
    );
    assert!(rt; children(alloc, &tree, nowhere())?.is_empty());
    Ok(())
}

#[test]
fn chains_lead_up_to_what_nothing_holds(rt: HostRuntime) -> Result<(), Fail> {
    let tree = furnished(rt.alloc())?;
    let mut chain = tree.chain(chest());
    assert_eq!(rt; chain.next(), held(Rel::On, bag()));
    assert_eq!(rt; chain.next(), held(Rel::In, room()));
    assert_eq!(rt; chain.next(), None);
    assert_eq!(rt; tree.chain(nowhere()).next(), None);
    Ok(())
}

#[test]
fn walks_down_come_to_all_that_is_held(rt: HostRuntime) -> Result<(), Fail> {
    let alloc = rt.alloc();
    let tree = furnished(alloc)?;
    let below: Vec<ObjNo> = tree.below(room()).collect(alloc)?;
    assert_eq!(rt; below.as_slice(), [bag(), chest(), coin()].as_slice());
    assert_eq!(rt; tree.below(chest()).next(), None);
    assert_eq!(rt; tree.below(nowhere()).next(), None);
    Ok(())
}

#[test]
fn holders_enclose_at_any_depth(rt: HostRuntime) -> Result<(), Fail> {
    let tree = furnished(rt.alloc())?;
    assert!(rt; tree.encloses(room(), chest()));
    assert!(rt; tree.encloses(bag(), chest()));
    assert!(rt; !tree.encloses(chest(), bag()));
    assert!(rt; !tree.encloses(chest(), chest()));
    Ok(())
}

#[test]
fn cycles_and_missing_objects_are_refused(rt: HostRuntime) -> Result<(), Fail> {
    let mut tree = furnished(rt.alloc())?;
    assert_eq!(rt; tree.put(bag(), Rel::In, chest()), Err(PutFault::Cycle));
    assert_eq!(rt; tree.put(room(), Rel::In, chest()), Err(PutFault::Cycle));
    assert_eq!(rt; tree.put(bag(), Rel::In, bag()), Err(PutFault::Cycle));
    assert_eq!(rt;
        tree.put(bag(), Rel::In, nowhere()),
        Err(PutFault::NoObject)
    );
    assert_eq!(rt;
        tree.put(nowhere(), Rel::In, bag()),
        Err(PutFault::NoObject)
    );
    assert_eq!(rt; tree.holder(bag()), held(Rel::In, room()));
    assert_eq!(rt; tree.holder(chest()), held(Rel::On, bag()));
    Ok(())
}

#[test]
fn taken_things_keep_what_they_hold(rt: HostRuntime) -> Result<(), Fail> {
    let alloc = rt.alloc();
    let mut tree = furnished(alloc)?;
    tree.take_out(bag());
    tree.take_out(nowhere());
    assert_eq!(rt; tree.holder(bag()), None);
    assert_eq!(rt; tree.holder(chest()), held(Rel::On, bag()));
    assert_eq!(rt;
        children(alloc, &tree, room())?.as_slice(),
        [coin()].as_slice()
    );
    tree.put(room(), Rel::Carried, chest())?;
    assert!(rt; tree.encloses(bag(), coin()));
    Ok(())
}

#[test]
fn copies_go_their_own_way(rt: HostRuntime) -> Result<(), Fail> {
    let alloc = rt.alloc();
    let tree = furnished(alloc)?;
    let mut copy = tree.copy(alloc)?;
    assert_eq!(rt;
        children(alloc, &copy, room())?.as_slice(),
        [bag(), coin()].as_slice()
    );
    copy.take_out(bag());
    assert_eq!(rt; copy.holder(bag()), None);
    assert_eq!(rt; tree.holder(bag()), held(Rel::In, room()));
    Ok(())
}

#[test]
fn faults_say_what_they_are(rt: HostRuntime) -> Result<(), Fail> {
    let alloc = rt.alloc();
    assert_eq!(rt;
        format!(in alloc; "{}", PutFault::Cycle)?.as_str(),
        "a thing can't hold itself"
    );
    assert_eq!(rt;
        format!(in alloc; "{}", PutFault::NoObject)?.as_str(),
        "no such object"
    );
    Ok(())
}
