//! Rulebooks of a few rules, whose order is told by hand.
use crate::order::books::{at_most, ordered};
use play_meaning::ActNo;
use play_meaning::standard_books::INSTEAD;
use play_meaning::tree::{Adjective, Aspect, Listing, Pattern, Quality, Side};
use rule_order::{Front, Heading, ListingSentence, listings};
use std::alloc::{AllocError, Global};
use std::test::Fail;
use world_meaning::{KindNo, Listed, ObjNo};

fn taking() -> Option<ActNo> {
    Some(ActNo::new(2))
}

fn hall() -> ObjNo {
    ObjNo::new(13)
}

fn the_box() -> ObjNo {
    ObjNo::new(14)
}

/// A container, perhaps an open one.
fn container(alloc: Global, is_open: bool) -> Result<Aspect, AllocError> {
    let mut adjectives = Vec::new(alloc);
    if is_open {
        adjectives.push(Adjective {
            quality: Quality::Is(0, Side::First),
            denied: false,
        })?;
    }
    Ok(Aspect::OfKind(KindNo::CONTAINER, Listed::new(adjectives)))
}

fn about(action: Option<ActNo>, noun: Aspect, place: Aspect) -> Pattern {
    Pattern {
        action,
        noun,
        second: Aspect::Anything,
        place,
        scene: None,
    }
}

fn instead<'a>(pattern: &'a Pattern, is_conditional: bool, listing: Listing) -> Heading<'a> {
    Heading {
        book: INSTEAD,
        pattern,
        is_conditional,
        listing,
    }
}

/// The instead rules in order, as these sentences list the six: doing anything, taking something, taking a container, taking
/// an open container in the hall, taking the box, and that with a condition.
fn instead_rules(alloc: Global, sentences: &[ListingSentence]) -> Result<Vec<u16>, Fail> {
    let listed = listings(alloc, 6, at_most(sentences, 3))?;
    let [ash, birch, cedar, elm, fir, oak] = listed.as_slice() else {
        return Ok(Vec::new(alloc));
    };
    let anything = about(None, Aspect::Anything, Aspect::Anything);
    let something = about(taking(), Aspect::Anything, Aspect::Anything);
    let a_container = about(taking(), container(alloc, false)?, Aspect::Anything);
    let an_open_one = about(taking(), container(alloc, true)?, Aspect::Exactly(hall()));
    let the_box = about(taking(), Aspect::Exactly(the_box()), Aspect::Anything);
    let rules = [
        instead(&anything, false, *ash),
        instead(&something, false, *birch),
        instead(&a_container, false, *cedar),
        instead(&an_open_one, false, *elm),
        instead(&the_box, false, *fir),
        instead(&the_box, true, *oak),
    ];
    let books = ordered(alloc, rules.as_slice())?;
    Ok(Vec::from_slice(alloc, books.book(INSTEAD))?)
}

const CEDAR_FIRST: ListingSentence = ListingSentence {
    rule: 2,
    at: Front::First,
};

const ASH_FIRST: ListingSentence = ListingSentence {
    rule: 0,
    at: Front::First,
};

const ASH_NOWHERE: ListingSentence = ListingSentence {
    rule: 0,
    at: Front::Nowhere,
};

#[test]
fn the_more_specific_goes_first(rt: HostRuntime) -> Result<(), Fail> {
    let rules = instead_rules(rt.alloc(), &[])?;
    assert_eq!(rt; rules.as_slice(), [5, 3, 4, 2, 1, 0].as_slice());
    Ok(())
}

#[test]
fn the_latest_listed_goes_first(rt: HostRuntime) -> Result<(), Fail> {
    let rules = instead_rules(rt.alloc(), &[CEDAR_FIRST, ASH_FIRST])?;
    assert_eq!(rt; rules.as_slice(), [0, 2, 5, 3, 4, 1].as_slice());
    Ok(())
}

#[test]
fn the_latest_listing_counts(rt: HostRuntime) -> Result<(), Fail> {
    let rules = instead_rules(rt.alloc(), &[CEDAR_FIRST, ASH_FIRST, ASH_NOWHERE])?;
    assert_eq!(rt; rules.as_slice(), [2, 5, 3, 4, 1].as_slice());
    Ok(())
}
