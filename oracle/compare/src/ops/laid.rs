//! Op 36: the bytes of a part of the snapshot buffer, cut at its end.

use super::Group;
use crate::{
    frame::Frame,
    model::{Model, BUFFER},
    random::Random,
};

pub const GROUP: Group = Group { name: "36", weight: 1, frame, line };

fn frame(random: &mut Random, _: u64) -> Frame {
    let first = match random.below(2) {
        0 => random.below(110) as u32,
        _ => random.about(BUFFER as u32),
    };
    // Few bytes, or all to the end where that is close.
    let near = first as usize + 64 >= BUFFER;
    let count = if near { random.about(BUFFER as u32) } else { random.below(40) as u32 };
    Frame { op: 36, numbers: vec![first, count], ..Frame::default() }
}

fn line(model: &mut Model, frame: &Frame) -> String {
    let (first, count) = (frame.number(0) as usize, frame.number(1) as usize);
    let bytes = model.buffer.iter().skip(first).take(count);
    frame.line(&bytes.map(|&byte| byte.into()).collect::<Vec<u32>>())
}
