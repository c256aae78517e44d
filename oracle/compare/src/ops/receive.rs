//! Op 13: receive. A living peer has the packets' bytes too, and they must be those of the cell, or a block's of the
//! second store.

use super::Group;
use crate::{
    frame::Frame,
    model::{Model, CELL},
    random::Random,
};

pub const GROUP: Group = Group { name: "13", weight: 2, frame, line };

fn frame(_: &mut Random, _: u64) -> Frame {
    Frame { op: 13, ..Frame::default() }
}

fn line(model: &mut Model, frame: &Frame) -> String {
    if let Some(number) = model.refusal() {
        return model.reply(frame, number);
    }
    let bytes = model.bench.next_bytes();
    let blocks = model.record.blocks();
    let (received, after) = model.bench.received(&model.record);
    model.record = after;
    let Some(out) = received else {
        return model.replies(frame, &[0, 0]);
    };
    let is_block = blocks.contains(&out.slot);
    if let Some(bytes) = bytes {
        let cell = if is_block { &model.second[..] } else { &model.store[out.slot * CELL..] };
        assert!(bytes == cell[..out.length as usize], "the store has what the source hands out");
    }
    let kind = if is_block { 2 } else { 1 };
    model.replies(frame, &[0, kind, out.channel.into(), out.slot as u32, out.length])
}
