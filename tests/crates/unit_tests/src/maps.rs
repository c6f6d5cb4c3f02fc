//! Tests of the map of rooms: small maps, whose places are told by hand, and many rooms at once.

mod many;
mod rows;
