//! Tests of the order of rulebooks: rules as a source would give them, and many at once.

mod books;
mod many;
mod rows;
