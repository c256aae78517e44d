//! Op 31: writing a command. The refusals are document 01's, since the source has no writer of its own.

use enet::{limits, size, write};

use super::Group;
use crate::{frame::Frame, model::Model, random::Random};

const REFUSED: u32 = 9;
const ROOM: u32 = 64;

/// The places of the numbers in a frame; the fields come last.
const BYTE: usize = 0;
const CHANNEL: usize = 1;
const NUMBER: usize = 2;
const KIND: usize = 3;
const ROOM_GIVEN: usize = 4;
const FIELDS: usize = 5;

pub const GROUP: Group = Group { name: "31", weight: 4, frame, line };

fn frame(random: &mut Random, turn: u64) -> Frame {
    let mut numbers = sound(random, turn);
    match random.below(8) {
        0 => numbers[BYTE] = random.up_to(255),
        1 => widen(&mut numbers, random),
        2 => numbers[ROOM_GIVEN] = random.pick(&[ROOM + 1, 66, 255, 256, u32::MAX]),
        3 => numbers[KIND] = random.pick(&[0, 13, 14, 15, 16, 17, 255, 256, 258, u32::MAX]),
        4 => numbers[ROOM_GIVEN] = size(numbers[KIND] as u8) as u32 - random.below(2) as u32,
        _ => {}
    }
    Frame { op: 31, numbers, ..Frame::default() }
}

/// Every kind with every room, in turn; numbers that fit, often at their ends.
fn sound(random: &mut Random, turn: u64) -> Vec<u32> {
    let kind = 1 + (turn % 12) as u8;
    let room = (turn / 12 % u64::from(ROOM + 1)) as u32;
    let byte = kind | (random.next() as u8 & 0xF0);
    let mut numbers = vec![byte.into(), random.up_to(255), random.up_to(65_535), kind.into(), room];
    numbers.extend(limits(kind).iter().map(|limit| random.up_to(*limit)));
    numbers
}

/// Makes one number too large for its parameter, if one of the kind can be.
fn widen(numbers: &mut [u32], random: &mut Random) {
    let limits = all_limits(numbers[KIND] as u8);
    let narrow: Vec<usize> = (0..limits.len()).filter(|&i| limits[i] < u32::MAX).collect();
    let place = random.pick(&narrow);
    let above = u32::MAX - limits[place];
    numbers[place] = limits[place] + random.up_to(above - 1) + 1;
}

/// The largest number for each place of a frame of this kind.
fn all_limits(kind: u8) -> Vec<u32> {
    let mut all = vec![u8::MAX.into(), u8::MAX.into(), u16::MAX.into(), 12, ROOM];
    all.extend(limits(kind));
    all
}

fn line(_: &mut Model, frame: &Frame) -> String {
    let kind = frame.number(KIND);
    if !(1..=12).contains(&kind) {
        return frame.bad();
    }
    let kind = kind as u8;
    let limits = all_limits(kind);
    if (0..limits.len()).any(|i| frame.number(i) > limits[i]) {
        return frame.bad();
    }
    let byte = frame.number(BYTE) as u8;
    if byte & 15 != kind || (frame.number(ROOM_GIVEN) as usize) < size(kind) {
        return frame.line(&[REFUSED]);
    }
    let fields: Vec<u32> = (FIELDS..limits.len()).map(|i| frame.number(i)).collect();
    let (channel, number) = (frame.number(CHANNEL) as u8, frame.number(NUMBER) as u16);
    let mut values = vec![0];
    values.extend(write(byte, channel, number, kind, &fields).into_iter().map(u32::from));
    frame.line(&values)
}
