//! As many rules as a source may have, in one rulebook.
use crate::order::books::ordered;
use play_meaning::tree::{Aspect, Listing, Pattern};
use rule_order::Heading;
use std::alloc::{AllocError, Global};
use std::test::Fail;
use world_meaning::ObjNo;

fn about(noun: Aspect) -> Pattern {
    Pattern {
        action: None,
        noun,
        second: Aspect::Anything,
        place: Aspect::Anything,
        scene: None,
    }
}

/// As many rules of every turn as a source may have, with these patterns in turn.
fn rules<'a>(
    alloc: Global,
    first: &'a Pattern,
    second: &'a Pattern,
) -> Result<Vec<Heading<'a>>, AllocError> {
    let mut rules = Vec::new(alloc);
    for number in 0..2000u16 {
        rules.push(Heading {
            book: 6,
            pattern: if number % 2 == 0 { first } else { second },
            is_conditional: false,
            listing: Listing::InOrder,
        })?;
    }
    Ok(rules)
}

#[test]
fn two_thousand_rules_are_put_in_order(rt: HostRuntime) -> Result<(), Fail> {
    let alloc = rt.alloc();
    let anything = about(Aspect::Anything);
    let an_object = about(Aspect::Exactly(ObjNo::new(13)));
    let rules = rules(alloc, &anything, &an_object)?;
    let books = ordered(alloc, rules.as_slice())?;
    let book = books.book(6);
    assert_eq!(rt; book.len(), 2000);
    for place in 0..1000u16 {
        assert_eq!(rt; book.get(usize::from(place)), Some(&(2 * place + 1)));
        assert_eq!(rt; book.get(1000 + usize::from(place)), Some(&(2 * place)));
    }
    assert!(rt; books.book(5).is_empty() && books.book(7).is_empty());
    Ok(())
}
