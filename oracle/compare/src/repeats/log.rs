//! What happened to the unsequenced window since the latest reset, as demand 3 counts it.

use std::collections::BTreeMap;

use crate::{frame::Frame, ops::unsequenced::WINDOW};

/// The most windows that the base may have moved, in all, since a group's delivery, if its repeat is to leave no trace.
pub const RECENT: u32 = 32;

/// The fewest windows, the second arrival's own move among them, between two deliveries of a group.
pub const APART: u32 = 64;

/// How many windows the base moved, in all, since the latest delivery of each group that was delivered.
#[derive(Default)]
pub struct Log(BTreeMap<u16, u32>);

impl Log {
    /// Adds a call by the line that answered it and the base before and after it; answers how far apart two deliveries
    /// are, where this is the second.
    pub fn add(&mut self, asked: &Frame, line: &str, before: u32, after: u32) -> Option<u32> {
        if line.starts_with("1 0 ") {
            self.0.clear();
            return None;
        }
        let moved = windows(before, after);
        self.0.values_mut().for_each(|since| *since += moved);
        match line.starts_with("10 0 1 ") {
            true => self.0.insert(asked.number(3) as u16, 0),
            false => None,
        }
    }

    /// The groups whose repeat leaves no trace, each with its windows.
    pub fn recent(&self) -> Vec<(u16, u32)> {
        self.0.iter().map(|(group, since)| (*group, *since)).filter(|(_, n)| *n <= RECENT).collect()
    }

    /// Every group that was delivered.
    pub fn groups(&self) -> Vec<u16> {
        self.0.keys().copied().collect()
    }
}

/// How many windows the base moved forward.
fn windows(before: u32, after: u32) -> u32 {
    u32::from((after as u16).wrapping_sub(before as u16) / WINDOW)
}

#[cfg(test)]
mod tests {
    use super::*;
    use crate::records::frame;

    #[test]
    fn moves_count_from_the_latest_delivery_and_a_reset_ends_it() {
        let mut log = Log::default();
        let arrival = |group| frame(10, vec![73, 0, 0, group]);
        assert_eq!(log.add(&arrival(5), "10 0 1 # 0", 0, 0), None);
        assert_eq!(log.add(&arrival(33_000), "10 8 # 0", 0, 31_744), None);
        assert_eq!(log.add(&arrival(32_768), "10 0 1 # 0", 31_744, 32_768), None);
        assert_eq!(log.recent(), [(5, 32), (32_768, 0)]);
        log.add(&arrival(33_792), "10 0 0 # 0", 32_768, 33_792);
        assert_eq!((log.recent(), log.groups()), (vec![(32_768, 1)], vec![5, 32_768]));
        assert_eq!(log.add(&arrival(5), "10 0 1 # 0", 33_792, 0), Some(64));
        log.add(&frame(1, vec![]), "1 11 # 0", 0, 0);
        assert_eq!(log.groups(), [5, 32_768]);
        log.add(&frame(1, vec![]), "1 0 # 0", 0, 0);
        assert!(log.groups().is_empty());
    }
}
