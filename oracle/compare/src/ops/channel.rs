//! Op 22: setting a channel's number.

use super::Group;
use crate::{frame::Frame, model::Model, random::Random};

pub const GROUP: Group = Group { name: "22", weight: 2, frame, line };

fn frame(random: &mut Random, _: u64) -> Frame {
    let (channel, place) = (random.about(7), random.about(3));
    let numbers = vec![channel, place, random.about(65_535)];
    Frame { op: 22, numbers, ..Frame::default() }
}

fn line(model: &mut Model, frame: &Frame) -> String {
    let channel = model.record.channels.get_mut(frame.number(0) as usize);
    let number = channel.and_then(|channel| channel.numbers.get_mut(frame.number(1) as usize));
    match (number, u16::try_from(frame.number(2))) {
        (Some(number), Ok(value)) => {
            *number = value;
            frame.line(&[])
        }
        _ => frame.bad(),
    }
}
