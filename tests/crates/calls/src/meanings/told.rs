//! What the words of a row mean, as it is printed.

use crate::meanings::actions::{followed, tried};
use crate::meanings::conditions::{clause, condition};
use crate::meanings::descriptions::described;
use crate::meanings::nesting::nested;
use crate::meanings::numbers::number;
use crate::meanings::objects::object;
use crate::meanings::patterns::{pattern, place};
use crate::meanings::phrases::{opened, phrase};
use crate::meanings::row::Row;
use crate::meanings::scene::Scene;
use crate::meanings::texts::{pieces, text};
use crate::named::name_told;
use i7_conditions::Scope;
use std::alloc::{AllocError, Global};

/// What words mean that are read as a sort says.
fn said(alloc: Global, scope: &Scope<'_>, sort: &str, said: &str) -> Result<String, AllocError> {
    match sort {
        "actions" => tried(alloc, scope, said),
        "blocks" => opened(alloc, scope, said),
        "clauses" => clause(alloc, scope, said),
        "conditions" => condition(alloc, scope, said),
        "descriptions" => described(alloc, scope, said),
        "lookups" => name_told(alloc, scope.names, said),
        "nesting" => nested(alloc, said),
        "numbers" => number(alloc, scope, said),
        "objects" => object(alloc, scope, said),
        "patterns" => pattern(alloc, scope, said),
        "phrases" => phrase(alloc, scope, said),
        "pieces" => pieces(alloc, scope, said),
        "places" => place(alloc, scope, said),
        "rulebooks" => followed(alloc, said),
        "texts" => text(alloc, scope, said),
        _ => format!(in alloc; "no such sort"),
    }
}

/// What words mean in a scene.
fn said_in(alloc: Global, scene: &Scene, row: &Row<'_>) -> Result<String, AllocError> {
    let repeats = scene.repeats.as_slice();
    if repeats.len() > 255 {
        return format!(in alloc; "too many repeats");
    }
    let scope = Scope {
        names: &scene.names,
        repeats,
    };
    said(alloc, &scope, row.sort, row.said)
}

/// What the words of a row mean.
pub fn told(alloc: Global, line: &str) -> Result<String, AllocError> {
    let Some(row) = Row::of(line) else {
        return format!(in alloc; "no row");
    };
    match Scene::of(alloc, row.with)? {
        None => format!(in alloc; "no such names"),
        Some(scene) => said_in(alloc, &scene, &row),
    }
}
