//! Some arrivals that came, to repeat them.

use crate::{frame::Frame, random::Random};

/// How many are remembered.
const REMEMBERED: usize = 8;

#[derive(Default)]
pub struct Kept(Vec<Frame>);

impl Kept {
    /// Keeps an arrival, in the place of some other once there are enough.
    pub fn remember(&mut self, asked: &Frame, random: &mut Random) {
        if ![10, 11, 18].contains(&asked.op) {
            return;
        }
        if self.0.len() == REMEMBERED {
            self.0.swap_remove(random.below(REMEMBERED as u64) as usize);
        }
        self.0.push(asked.clone());
    }

    pub fn forget(&mut self) {
        self.0.clear();
    }

    pub fn is_empty(&self) -> bool {
        self.0.is_empty()
    }

    /// Any of them; there must be one.
    pub fn any(&self, random: &mut Random) -> Frame {
        self.0[random.below(self.0.len() as u64) as usize].clone()
    }
}
