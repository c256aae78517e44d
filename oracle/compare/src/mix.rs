//! Which calls take part in the random scripts.

use crate::{acknowledging, frame::Frame, model::Model, random::Random};

#[derive(Clone, Copy, PartialEq, Eq)]
pub enum Mix {
    /// Without ops 8, 9, 14 and 18: the stored scripts were drawn before these were built, and stay as they are.
    Stored,
    All,
}

impl Mix {
    /// Once in so many times a call around acknowledgement, where it takes part; else nothing is drawn.
    pub fn more(self, model: &Model, random: &mut Random, times: u64) -> Option<Frame> {
        match self {
            Mix::Stored => None,
            Mix::All => random.once_in(times).then(|| acknowledging::drawn(model, random)),
        }
    }

    /// The ops of one call on a random record.
    pub fn calls(self) -> &'static [&'static str] {
        match self {
            Mix::Stored => &["2", "3"],
            Mix::All => &["2", "3", "8", "9", "14"],
        }
    }
}
