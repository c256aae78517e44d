//! Op 30: reading a command.

use enet::size;

use super::Group;
use crate::{frame::Frame, model::Model, random::Random};

/// The reply's number of document 01 for a refused command.
const REFUSED: u32 = 9;

/// The lengths that the sweep tries for each byte: from nothing to past the longest command.
const LENGTHS: u64 = 53;
const PAIRS: u64 = 256 * LENGTHS;
/// Shares no factor with the pairs, so that the sweep meets each, and different ones early.
const STRIDE: u64 = 5_077;

pub const GROUP: Group = Group { name: "30", weight: 4, frame, line };

fn frame(random: &mut Random, turn: u64) -> Frame {
    let (place, bytes) = match turn % 4 {
        0 => sweep(random, turn / 4),
        1 => close(random),
        2 => end(random),
        _ => anywhere(random),
    };
    Frame { op: 30, numbers: vec![place], bytes }
}

/// Every byte with every short length, in turn.
fn sweep(random: &mut Random, turn: u64) -> (u32, Vec<u8>) {
    let pair = turn.wrapping_mul(STRIDE) % PAIRS;
    let mut bytes = random.bytes((pair / 256) as usize);
    if let Some(first) = bytes.first_mut() {
        *first = (pair % 256) as u8;
    }
    (0, bytes)
}

/// A known command somewhere, with one byte too few, none or one more after it.
fn close(random: &mut Random) -> (u32, Vec<u8>) {
    let kind = 1 + random.below(12) as u8;
    let place = random.below(20) as usize;
    let length = place + size(kind) + random.below(3) as usize - 1;
    let mut bytes = random.bytes(length);
    bytes[place] = kind | (random.next() as u8 & 0xF0);
    (place as u32, bytes)
}

/// Places at the end, past it, and at the end of all numbers.
fn end(random: &mut Random) -> (u32, Vec<u8>) {
    let length = random.below(60) as u32;
    let bytes = random.bytes(length as usize);
    let place = match random.below(3) {
        0 => random.pick(&[length, length + 1, length + 4, 65_535, 65_536, 1 << 31]),
        1 => u32::MAX - random.below(50) as u32,
        _ => length.saturating_sub(random.below(8) as u32),
    };
    (place, bytes)
}

/// Random bytes, now and then longer than a datagram may be.
fn anywhere(random: &mut Random) -> (u32, Vec<u8>) {
    let most = if random.once_in(16) { 6_000 } else { 100 };
    let length = random.below(most);
    let place = random.below(length + 1) as u32;
    (place, random.bytes(length as usize))
}

fn line(model: &mut Model, frame: &Frame) -> String {
    match model.bench.read(&frame.bytes, frame.number(0) as usize) {
        None => frame.line(&[REFUSED]),
        Some(read) => {
            let header = [read.byte.into(), read.channel.into(), read.number.into()];
            frame.line(&[&[0, read.next as u32], &header[..], &read.fields].concat())
        }
    }
}
