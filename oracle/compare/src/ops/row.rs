//! Op 15: the record, written out.

use super::Group;
use crate::{frame::Frame, model::Model, random::Random};

pub const GROUP: Group = Group { name: "15", weight: 1, frame, line };

fn frame(_: &mut Random, _: u64) -> Frame {
    Frame { op: 15, ..Frame::default() }
}

fn line(model: &mut Model, frame: &Frame) -> String {
    frame.line(&model.row())
}
