//! Op 24: setting an incoming slot.

use enet::record::{Incoming, INCOMING};

use super::Group;
use crate::{frame::Frame, model::Model, random::Random};

/// The largest numbers: the slot, then the types of document 01's slot.
pub const LIMITS: [u32; 7] = [
    INCOMING as u32 - 1,
    u8::MAX as u32,
    u8::MAX as u32,
    u16::MAX as u32,
    u32::MAX,
    u32::MAX,
    u32::MAX,
];
const LENGTH: usize = 6;

pub const GROUP: Group = Group { name: "24", weight: 4, frame, line };

fn frame(random: &mut Random, _: u64) -> Frame {
    let mut numbers: Vec<u32> = LIMITS.iter().map(|limit| random.up_to(*limit)).collect();
    if random.once_in(4) {
        let place = random.below(4) as usize;
        numbers[place] = random.about(LIMITS[place]);
    }
    // SCRIPT.md leaves open whether a length has 16 bits or 32.
    numbers[LENGTH] = random.up_to(65_535);
    Frame { op: 24, numbers, ..Frame::default() }
}

fn line(model: &mut Model, frame: &Frame) -> String {
    if LIMITS.iter().enumerate().any(|(place, limit)| frame.number(place) > *limit) {
        return frame.bad();
    }
    model.record.incoming_slots[frame.number(0) as usize] = Incoming {
        byte: frame.number(1) as u8,
        channel: frame.number(2) as u8,
        number: frame.number(3) as u16,
        fragments: frame.number(4),
        remaining: frame.number(5),
        length: frame.number(LENGTH),
    };
    frame.line(&[])
}
