//! Op 12: dispatch. The refusals are document 01's.

use enet::record::place;

use super::Group;
use crate::{frame::Frame, model::Model, random::Random};

pub const GROUP: Group = Group { name: "12", weight: 2, frame, line };

fn frame(random: &mut Random, _: u64) -> Frame {
    let channel = match random.below(16) {
        0 => random.pick(&[8, 255, 256, u32::MAX]),
        _ => random.below(8) as u32,
    };
    Frame { op: 12, numbers: vec![channel], ..Frame::default() }
}

fn line(model: &mut Model, frame: &Frame) -> String {
    let channel = frame.number(0);
    if channel > 255 {
        return frame.bad();
    }
    if let Some(number) = model.refusal() {
        return model.reply(frame, number);
    }
    if channel >= model.record.numbers[place::CHANNEL_COUNT] {
        return model.reply(frame, 2);
    }
    model.record = model.bench.dispatch(&model.record, channel as usize);
    model.reply(frame, 0)
}
