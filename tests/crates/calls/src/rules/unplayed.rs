//! Why a body isn't done.
use std::alloc::AllocError;
use story_format::LoadFault;
use thiserror::Error;
use world_meaning::Fault;

/// Why a body isn't done.
#[derive(Debug, Drop, Error)]
pub enum Unplayed {
    /// The source is refused.
    #[error("refused\t{0}")]
    Refused(#[from] Fault),
    #[error("unplayed\tthe story isn't loaded: {0}")]
    Unloaded(#[from] LoadFault),
    #[error("unplayed\tout of memory")]
    Memory(#[from(alloc)] AllocError),
    #[error("unplayed\ta part can't be read")]
    UnknownPart,
    #[error("unplayed\tnot one rule")]
    NotOneRule,
    #[error("unplayed\tmore rulebooks or scenes than there may be")]
    TooManyNames,
    #[error("unplayed\ta code isn't sound")]
    Unsound,
    #[error("unplayed\tthe codes aren't sound together")]
    NotTogether,
    #[error("unplayed\tthe code that is to be done is no body")]
    NoBody,
    #[error("unplayed\ta description isn't described by a description's code")]
    Undescribed,
    #[error("unplayed\tthe body tries an action or follows a rulebook")]
    AsksMore,
    #[error("unplayed\tthe body goes on longer than any may")]
    Endless,
}
