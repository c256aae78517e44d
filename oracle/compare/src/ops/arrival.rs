//! What ops 10 and 11 share: what came in, its refusals, and how frames of it are drawn.

use enet::{
    record::{place, Record},
    Arrival,
};

use crate::{
    frame::Frame,
    model::{Model, Settings, CELL, CONNECTED, DISCONNECT_LATER},
    random::Random,
};

/// A command that came in, as a frame names it; only an unsequenced one has a group.
pub struct Came<'a> {
    pub byte: u8,
    pub channel: u8,
    pub number: u16,
    pub group: u16,
    pub length: u32,
    pub place: u32,
    pub datagram: &'a [u8],
}

impl<'a> Came<'a> {
    /// As the source takes it, if its length fits there and its place is one of the datagram's, or its end.
    pub fn arrival(&self) -> Option<Arrival<'a>> {
        let &Came { byte, channel, number, group, length, place, datagram } = self;
        let (length, rest) = (length.try_into().ok()?, datagram.get(place as usize..)?);
        Some(Arrival { byte, channel, number, group, length, rest })
    }

    /// The payload of an arrival that is not refused.
    pub fn payload(&self) -> &'a [u8] {
        &self.datagram[self.place as usize..][..self.length as usize]
    }

    /// What is refused before the arrival's own tests: the store's length, the settings, the record, the byte.
    pub fn refusal(&self, model: &Model, kind: u8) -> Option<u32> {
        model.lent_refusal().or((self.byte & 15 != kind).then_some(9))
    }

    /// Document 01's 6 and 7 of a sound record.
    pub fn judged(&self, record: &Record, settings: &Settings) -> Option<u32> {
        let state = record.numbers[place::STATE];
        let takes = [CONNECTED, DISCONNECT_LATER].contains(&state);
        if !takes || u32::from(self.channel) >= record.numbers[place::CHANNEL_COUNT] {
            return Some(6);
        }
        let long = self.length > settings.packet || self.length as usize > CELL;
        (long || !self.fits()).then_some(7)
    }

    /// Whether the payload ends in the datagram.
    pub fn fits(&self) -> bool {
        u64::from(self.place) + u64::from(self.length) <= self.datagram.len() as u64
    }
}

/// A channel, mostly one below the count.
pub fn channel(random: &mut Random, record: &Record) -> u32 {
    let count = record.numbers[place::CHANNEL_COUNT].min(255);
    match random.below(24) {
        0 => random.pick(&[count, 8, 255, 256, u32::MAX]),
        _ => random.below(count.clamp(1, 8).into()) as u32,
    }
}

/// A byte of this kind with any flags, or now and then another.
pub fn byte(random: &mut Random, kind: u8) -> u32 {
    match random.below(24) {
        0 => random.pick(&[0, 6, 7, 8, 9, 13, 15, 255, 256, u32::MAX]),
        _ => u32::from(kind) | (random.below(16) as u32) << 4,
    }
}

/// The frame with a payload's length and place after its numbers, and a datagram in which it mostly lies.
pub fn with_payload(random: &mut Random, mut frame: Frame) -> Frame {
    let length = match random.below(24) {
        0 => random.pick(&[4_095, 4_096, 4_097]),
        1 => random.below(4_097) as u32,
        2..=5 => random.pick(&[0, 1]),
        _ => random.below(40) as u32,
    };
    let place = random.pick(&[0, 1, 8, 12]);
    let more = random.pick(&[0, 0, 1, 9]);
    let mut datagram = random.bytes((place + length + more) as usize);
    let (mut length, mut place) = (length, place);
    let end = datagram.len() as u32;
    match random.below(64) {
        // Past the end by one, be it by the length, the place, or a byte that is missing.
        0 => length = end - place + 1,
        1 => place = end + 1 - length,
        2 => datagram.truncate((place + length).saturating_sub(1) as usize),
        // No payload at the end, or just past it.
        3 => (length, place) = (0, end + random.below(2) as u32),
        4 => length = random.pick(&[65_535, 65_536, 1 << 30, u32::MAX]),
        5 => place = random.pick(&[65_535, 65_536, u32::MAX - length, u32::MAX]),
        _ => {}
    }
    frame.numbers.extend([length, place]);
    frame.bytes = datagram;
    frame
}
