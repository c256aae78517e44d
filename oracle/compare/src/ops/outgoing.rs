//! Op 23: setting an outgoing slot.

use enet::{
    limits,
    record::{Outgoing, OUTGOING},
};

use super::Group;
use crate::{frame::Frame, model::Model, random::Random};

/// The largest numbers before the kind: the slot, then the types of document 01's slot.
pub const LIMITS: [u32; 13] = [
    OUTGOING as u32 - 1,
    u16::MAX as u32,
    u16::MAX as u32,
    u32::MAX,
    u32::MAX,
    u32::MAX,
    u32::MAX,
    u16::MAX as u32,
    u16::MAX as u32,
    1,
    u8::MAX as u32,
    u8::MAX as u32,
    u16::MAX as u32,
];
const KIND: usize = LIMITS.len();
const FIELDS: usize = KIND + 1;

/// The place of the command byte among the slot's numbers.
pub const BYTE: usize = 9;

pub const GROUP: Group = Group { name: "23", weight: 4, frame, line };

fn frame(random: &mut Random, _: u64) -> Frame {
    let slot = random.below(OUTGOING as u64) as usize;
    let mut frame = set(random, slot);
    if random.once_in(4) {
        let place = random.below(frame.numbers.len() as u64) as usize;
        frame.numbers[place] = random.pick(&[2, 13, 32, 256, 65_536, u32::MAX]);
    }
    frame
}

/// A frame that sets this slot to numbers that fit.
pub fn set(random: &mut Random, slot: usize) -> Frame {
    let kind = 1 + random.below(12) as u8;
    let mut numbers = vec![slot as u32];
    numbers.extend(LIMITS[1..].iter().map(|limit| random.up_to(*limit)));
    numbers.push(kind.into());
    numbers.extend(limits(kind).iter().map(|limit| random.up_to(*limit)));
    Frame { op: 23, numbers, ..Frame::default() }
}

fn line(model: &mut Model, frame: &Frame) -> String {
    let kind = match frame.number(KIND) {
        kind @ 1..=12 => kind as u8,
        _ => return frame.bad(),
    };
    let limits = limits(kind);
    let fits = |from: usize, limits: &[u32]| {
        limits.iter().enumerate().all(|(place, limit)| frame.number(from + place) <= *limit)
    };
    if !fits(0, &LIMITS) || !fits(FIELDS, &limits) {
        return frame.bad();
    }
    model.record.outgoing_slots[frame.number(0) as usize] = Outgoing {
        reliable: frame.number(1) as u16,
        unreliable: frame.number(2) as u16,
        sent_time: frame.number(3),
        timeout: frame.number(4),
        queue_time: frame.number(5),
        offset: frame.number(6),
        length: frame.number(7) as u16,
        attempts: frame.number(8) as u16,
        packet: frame.number(9) == 1,
        byte: frame.number(10) as u8,
        channel: frame.number(11) as u8,
        number: frame.number(12) as u16,
        kind,
        fields: (FIELDS..FIELDS + limits.len()).map(|place| frame.number(place)).collect(),
    };
    frame.line(&[])
}
