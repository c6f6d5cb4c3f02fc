//! Clauses and conditions by their words.

use crate::meanings::scene::words;
use i7_conditions::{Found, Scope, clause_of, condition_of};
use play_meaning::tree::{Clause, Condition, Conjunction};
use std::alloc::{AllocError, Global};

/// A clause as it is printed, behind `not` where it is denied.
fn denied(alloc: Global, clause: &Clause) -> Result<String, AllocError> {
    let basic = &clause.basic;
    if clause.denied {
        format!(in alloc; "not {basic:?}")
    } else {
        format!(in alloc; "{basic:?}")
    }
}

/// A conjunction as it is printed: its clauses parted by ` & `.
fn conjunction(alloc: Global, all: &Conjunction) -> Result<String, AllocError> {
    let mut line = denied(alloc, &all.first)?;
    for clause in all.rest.iter() {
        line.push_str(" & ")?;
        line.push_str(denied(alloc, clause)?.as_str())?;
    }
    Ok(line)
}

/// A condition as it is printed: its conjunctions parted by ` | `.
fn printed(alloc: Global, condition: &Condition) -> Result<String, AllocError> {
    let mut line = conjunction(alloc, &condition.first)?;
    for all in condition.rest.iter() {
        line.push_str(" | ")?;
        line.push_str(conjunction(alloc, all)?.as_str())?;
    }
    Ok(line)
}

/// What words ask that are one clause.
pub fn clause(alloc: Global, scope: &Scope<'_>, text: &str) -> Result<String, AllocError> {
    let words = words(alloc, text)?;
    match clause_of(alloc, scope, words.as_slice())? {
        Found::Read(clause) => denied(alloc, &clause),
        Found::TooMany => format!(in alloc; "too many"),
        Found::Unread => format!(in alloc; "unread"),
    }
}

/// What words ask.
pub fn condition(alloc: Global, scope: &Scope<'_>, text: &str) -> Result<String, AllocError> {
    let words = words(alloc, text)?;
    match condition_of(alloc, scope, words.as_slice())? {
        Found::Read(condition) => printed(alloc, &condition),
        Found::TooMany => format!(in alloc; "too many"),
        Found::Unread => format!(in alloc; "unread"),
    }
}
