//! Rulebooks of the rules of a story that declares no kind.

use rule_order::{Books, Heading, order};
use std::alloc::{AllocError, Global};
use world_meaning::built_in_parents;

/// The first so many items, or all.
pub fn at_most<T>(items: &[T], count: usize) -> &[T] {
    items.split_at(items.len().min(count)).0
}

/// The rulebooks of these rules.
pub fn ordered(alloc: Global, rules: &[Heading<'_>]) -> Result<Books, AllocError> {
    let kinds = built_in_parents(alloc)?;
    order(alloc, at_most(kinds.as_slice(), 255), at_most(rules, 65535))
}
