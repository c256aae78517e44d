//! Op 34: restore from the buffer, which the port adds: C-12's rule.

use super::Group;
use crate::{
    frame::Frame,
    model::{Model, BUFFER},
    random::Random,
    snapshots::reader::{self, Snapshot},
};

pub const GROUP: Group = Group { name: "34", weight: 1, frame, line };

fn frame(random: &mut Random, _: u64) -> Frame {
    let count = match random.below(4) {
        0 => random.about(BUFFER as u32),
        // Around the snapshot of the start.
        1 => 99 + random.below(5) as u32,
        _ => 101,
    };
    Frame { op: 34, numbers: vec![count], ..Frame::default() }
}

fn line(model: &mut Model, frame: &Frame) -> String {
    let Some(bytes) = model.buffer.get(..frame.number(0) as usize) else {
        return frame.bad();
    };
    assert!(!model.bench.lives(), "nothing is loaded into a living peer");
    if !model.lends_both() {
        return model.reply(frame, 11);
    }
    match reader::read(bytes) {
        Ok(Snapshot { record, store, second }) => {
            (model.record, model.store, model.second) = (record, store, second);
            model.reply(frame, 0)
        }
        Err(number) => model.reply(frame, number),
    }
}
