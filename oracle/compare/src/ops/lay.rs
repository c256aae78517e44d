//! Op 35: bytes put into the snapshot buffer.

use enet::record::Record;

use super::Group;
use crate::{
    frame::Frame,
    model::{Model, BUFFER, SECOND, STORE},
    random::Random,
    snapshots::writer,
};

pub const GROUP: Group = Group { name: "35", weight: 1, frame, line };

fn frame(random: &mut Random, _: u64) -> Frame {
    let start = writer::write(&Record::fresh(1_392), &[0; STORE], &[0; SECOND]);
    let (place, bytes) = match random.below(4) {
        0 => (random.about(BUFFER as u32), random.bytes(4)),
        1 => (random.below(101) as u32, random.bytes(1)),
        _ => (0, start),
    };
    Frame { op: 35, numbers: vec![place], bytes }
}

fn line(model: &mut Model, frame: &Frame) -> String {
    let place = frame.number(0) as usize;
    match model.buffer.get_mut(place..place + frame.bytes.len()) {
        Some(there) => {
            there.copy_from_slice(&frame.bytes);
            frame.line(&[])
        }
        None => frame.bad(),
    }
}
