//! Op 16: the hash of a part of a store.

use enet::record::hash;

use super::Group;
use crate::{
    frame::Frame,
    model::{Model, SECOND, STORE},
    random::Random,
};

pub const GROUP: Group = Group { name: "16", weight: 1, frame, line };

fn frame(random: &mut Random, _: u64) -> Frame {
    let first = random.about(STORE as u32);
    let mut numbers = vec![first, random.about(STORE as u32)];
    // Which store is drawn from another number: stored scripts rely on the draws as they were before C-11.
    match first % 8 {
        0..=1 => numbers.push(0),
        2..=3 => numbers.push(1),
        4 => numbers.push([2, 256, u32::MAX][first as usize / 8 % 3]),
        _ => {}
    }
    Frame { op: 16, numbers, ..Frame::default() }
}

/// The whole of the second store.
pub fn whole_second() -> Frame {
    Frame { op: 16, numbers: vec![0, SECOND as u32, 1], ..Frame::default() }
}

fn line(model: &mut Model, frame: &Frame) -> String {
    match part(model, frame) {
        Some(part) => frame.line(&[hash(&part)]),
        None => frame.bad(),
    }
}

/// The bytes that the frame names, cut at the store's end, if there is such a store.
pub fn part(model: &Model, frame: &Frame) -> Option<Vec<u32>> {
    let (first, count) = (frame.number(0) as usize, frame.number(1) as usize);
    let store = match frame.number(2) {
        0 => &model.store,
        1 => &model.second,
        _ => return None,
    };
    Some(store.iter().skip(first).take(count).map(|&byte| byte.into()).collect())
}
