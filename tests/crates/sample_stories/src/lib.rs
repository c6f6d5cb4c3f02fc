//! Sources and a story that the crates of tests play.

mod furnished;

pub use furnished::FURNISHED;

/// A Hall with a description, and a Garden north of it.
pub const TWO_ROOMS: &[u8] =
    b"The Hall is a room. \"A bare hall.\"\n\nThe Garden is north of the Hall.\n";
