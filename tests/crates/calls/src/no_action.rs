//! The action outside of which rules are done.
use play_meaning::{ActNo, ActionNow};

/// The action that stands for none.
pub const NO_ACTION: ActionNow = ActionNow {
    action: ActNo::NONE,
    noun: None,
    second: None,
    silent: false,
};
