//! Op 17: the bytes of a part of a store.

use super::{store, Group};
use crate::{frame::Frame, model::Model, random::Random};

pub const GROUP: Group = Group { name: "17", weight: 1, frame, line };

fn frame(random: &mut Random, turn: u64) -> Frame {
    Frame { op: 17, ..(store::GROUP.frame)(random, turn) }
}

fn line(model: &mut Model, frame: &Frame) -> String {
    match store::part(model, frame) {
        Some(part) => frame.line(&part),
        None => frame.bad(),
    }
}
