//! Op 33: write a snapshot into the buffer, which the port adds: C-12's rule.

use enet::record::hash;

use super::Group;
use crate::{
    frame::Frame,
    model::{Model, BUFFER},
    random::Random,
    snapshots::writer::{self, EDITION},
};

pub const GROUP: Group = Group { name: "33", weight: 1, frame, line };

fn frame(random: &mut Random, _: u64) -> Frame {
    let edition = match random.below(6) {
        0 => random.pick(&[0, 2, 3, 256, u32::MAX]),
        _ => EDITION,
    };
    let room = match random.below(4) {
        0 => random.about(BUFFER as u32),
        1 => 80 + random.below(80) as u32,
        _ => BUFFER as u32,
    };
    Frame { op: 33, numbers: vec![edition, room], ..Frame::default() }
}

fn line(model: &mut Model, frame: &Frame) -> String {
    let (edition, room) = (frame.number(0), frame.number(1) as usize);
    if room > BUFFER {
        return frame.bad();
    }
    match written(model, edition, room) {
        Ok(bytes) => {
            model.buffer[..bytes.len()].copy_from_slice(&bytes);
            let row: Vec<u32> = bytes.iter().map(|&byte| byte.into()).collect();
            frame.line(&[0, row.len() as u32, hash(&row)])
        }
        Err(number) => frame.line(&[number]),
    }
}

/// The snapshot, or the first that refuses it: 11, 13, an edition that is not there, no room.
fn written(model: &Model, edition: u32, room: usize) -> Result<Vec<u8>, u32> {
    if let Some(number) = model.both_refusal() {
        return Err(number);
    }
    if edition != EDITION {
        return Err(15);
    }
    let bytes = writer::write(&model.record, &model.store, &model.second);
    if bytes.len() > room {
        return Err(12);
    }
    Ok(bytes)
}
