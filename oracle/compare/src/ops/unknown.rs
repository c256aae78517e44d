//! Ops that SCRIPT.md does not list.

use super::Group;
use crate::{frame::Frame, model::Model, random::Random};

/// Op 17 has been listed since; the stored scripts were drawn with it, and it is answered as what it is.
const OPS: &[u8] = &[17, 19, 25, 29, 33, 200, 255];

pub const GROUP: Group = Group { name: "unknown", weight: 1, frame, line };

fn frame(random: &mut Random, _: u64) -> Frame {
    let count = random.below(8);
    let length = random.below(20) as usize;
    Frame {
        op: random.pick(OPS),
        numbers: (0..count).map(|_| random.number()).collect(),
        bytes: random.bytes(length),
    }
}

fn line(_: &mut Model, frame: &Frame) -> String {
    frame.unknown()
}
