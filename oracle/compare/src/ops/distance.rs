//! Op 32: the distance of two times.

use super::Group;
use crate::{frame::Frame, model::Model, random::Random};

const DAY: u32 = 86_400_000;
const HALF: u32 = 1 << 31;
const TURN: u32 = DAY.wrapping_neg();

/// Where the rule changes or might be thought to; their neighbours are tried too.
const EDGES: &[u32] = &[0, DAY, HALF, TURN];

pub const GROUP: Group = Group { name: "32", weight: 2, frame, line };

fn frame(random: &mut Random, _: u64) -> Frame {
    let a = time(random);
    // The difference is drawn too, since two drawn times seldom lie an edge apart.
    let b = match random.below(3) {
        0 => time(random),
        _ => a.wrapping_sub(time(random)),
    };
    Frame { op: 32, numbers: vec![a, b], ..Frame::default() }
}

/// A time close to an edge, or any.
fn time(random: &mut Random) -> u32 {
    match random.below(3) {
        0 => random.number(),
        _ => random.pick(EDGES).wrapping_add(random.below(5) as u32).wrapping_sub(2),
    }
}

fn line(model: &mut Model, frame: &Frame) -> String {
    frame.line(&[model.bench.distance(frame.number(0), frame.number(1))])
}
