//! What names stand for, as it is printed.
use i7_conditions::Names;
use std::alloc::{AllocError, Global};

/// What a name stands for, and the kind that a plural is of.
pub fn name_told(alloc: Global, names: &Names, name: &str) -> Result<String, AllocError> {
    let meaning = names.meaning(name.as_bytes());
    let kind = names.plural(name.as_bytes());
    format!(in alloc; "{meaning:?} {kind:?}")
}
