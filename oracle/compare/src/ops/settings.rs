//! Op 0: the settings. Only the checksum and the lengths of the stores have numbers that do not fit.

use super::Group;
use crate::{
    frame::Frame,
    model::{self, Model, Settings},
    random::Random,
};

const STORE: u32 = model::STORE as u32;
const SECOND: u32 = model::SECOND as u32;

pub const GROUP: Group = Group { name: "0", weight: 1, frame, line };

fn frame(random: &mut Random, _: u64) -> Frame {
    let mtu = match random.below(2) {
        0 => random.pick(&[0, 575, 576, 1_392, 4_096, 4_097]),
        _ => random.number(),
    };
    let packet = match random.below(2) {
        0 => random.pick(&[0, 1, 1_073_741_824, 1_073_741_825]),
        _ => random.number(),
    };
    let waiting = random.up_to(u32::MAX);
    let checksum = random.pick(&[0, 0, 0, 1, 1, 1, 2, 256, u32::MAX]);
    let store = match random.below(4) {
        0 => random.pick(&[STORE + 1, 65_536, u32::MAX]),
        _ => random.up_to(STORE),
    };
    let numbers = vec![mtu, packet, waiting, checksum, store, second(waiting)];
    Frame { op: 0, numbers, ..Frame::default() }
}

/// The second store's length, drawn from another number: stored scripts rely on the draws as they were before C-11.
fn second(drawn: u32) -> u32 {
    match drawn % 8 {
        0 => [SECOND + 1, 65_536, u32::MAX][drawn as usize / 8 % 3],
        1 => SECOND - 1,
        2..=4 => drawn / 8 % SECOND,
        _ => SECOND,
    }
}

fn line(model: &mut Model, frame: &Frame) -> String {
    if frame.number(3) > 1 || frame.number(4) > STORE || frame.number(5) > SECOND {
        return frame.bad();
    }
    model.settings = Settings {
        mtu: frame.number(0),
        packet: frame.number(1),
        waiting: frame.number(2),
        checksum: frame.number(3) == 1,
        store: frame.number(4),
        second: frame.number(5),
    };
    frame.line(&[])
}
