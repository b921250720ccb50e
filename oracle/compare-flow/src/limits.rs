//! Limits that a call is handed.

use crate::expected::{MOST_BYTES, MOST_WORK};

/// The record of limits.
#[repr(C)]
#[derive(Debug, Clone, Copy, PartialEq, Eq)]
pub struct Limits {
    /// The most work that is no refusal.
    pub work: u64,
    /// The most state bytes.
    pub state: u64,
    /// The most retained bytes.
    pub facts: u64,
}

impl Limits {
    /// Those of a call that is handed none, which the Rust has as constants.
    pub const TODAYS: Self = Self {
        work: MOST_WORK,
        state: MOST_BYTES,
        facts: MOST_BYTES,
    };

    /// The limits as they count: none is above today's.
    pub fn counted(self) -> Self {
        Self {
            work: self.work.min(MOST_WORK),
            state: self.state.min(MOST_BYTES),
            facts: self.facts.min(MOST_BYTES),
        }
    }
}
