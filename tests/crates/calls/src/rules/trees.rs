//! What a source's rule means, as it is resolved, before it becomes code.
use crate::rules::reading::sentences_in;
use crate::rules::unplayed::Unplayed;
use i7_claims::Claimed;
use i7_kinds::tale_of;
use i7_names::names_in;
use i7_resolution::{Resolution, resolution_of};
use i7_rules::SourceRule;
use std::alloc::{AllocError, Global};

/// The rules of sentences, by what these claim.
fn rules_by(alloc: Global, claimed: &Claimed<'_>) -> Result<Vec<SourceRule>, Unplayed> {
    let tale = tale_of(alloc, claimed)?.tale;
    let names = names_in(alloc, claimed)?;
    if names.rulebooks.len() > 100 || names.scenes > 50 {
        return Err(Unplayed::TooManyNames);
    }
    match resolution_of(alloc, &names, &tale, claimed.sentences())? {
        Resolution::Says(resolved) => Ok(resolved.rules),
        Resolution::Refused(fault) => Err(Unplayed::Refused(fault)),
    }
}

/// The rules of a source.
fn rules_of(alloc: Global, source: &str) -> Result<Vec<SourceRule>, Unplayed> {
    let sentences = sentences_in(alloc, source)?;
    let claimed = Claimed::new(alloc, sentences.as_slice())?;
    rules_by(alloc, &claimed)
}

/// The body of a source's one rule, phrase by phrase, or why it has none.
pub fn told_trees(alloc: Global, source: &str) -> Result<String, AllocError> {
    let rules = match rules_of(alloc, source) {
        Ok(rules) => rules,
        Err(unplayed) => return format!(in alloc; "{unplayed}"),
    };
    match rules.as_slice() {
        [rule] => format!(in alloc; "{:?}", rule.rule.body),
        _ => format!(in alloc; "{}", Unplayed::NotOneRule),
    }
}
