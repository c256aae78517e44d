//! Op 6: setup. The refusals are document 01's, since the source has no slots and asks nothing of a command.

use enet::{
    limits,
    record::{place, Outgoing, Record},
};

use super::Group;
use crate::{damage::PEER, frame::Frame, model::Model, random::Random};

/// The places of the numbers in a frame; the fields come last.
const BYTE: usize = 0;
const CHANNEL: usize = 1;
const NUMBER: usize = 2;
const KIND: usize = 3;
const PACKET: usize = 4;
const OFFSET: usize = 5;
const LENGTH: usize = 6;
const FIELDS: usize = 7;

/// The largest number for each place before the fields.
const LIMITS: [u32; FIELDS] =
    [u8::MAX as u32, u8::MAX as u32, u16::MAX as u32, 12, 1, u32::MAX, u16::MAX as u32];

pub const GROUP: Group = Group { name: "6", weight: 2, frame, line };

fn frame(random: &mut Random, _: u64) -> Frame {
    drawn(random, 8)
}

/// A command of any kind, mostly on a channel below the count or the peer itself.
pub fn drawn(random: &mut Random, count: u32) -> Frame {
    let kind = 1 + random.below(12) as u8;
    let channel = match random.below(16) {
        0 => random.pick(&[count.min(255), 8, 254]),
        1..=4 => PEER.into(),
        _ => random.below(count.max(1).into()) as u32,
    };
    let byte = match random.below(16) {
        0 => random.next() as u8,
        _ => kind | (random.pick(&[0, 4, 8, 8, 12, 15]) << 4),
    };
    let mut frame = of(random, byte, channel, kind);
    if random.once_in(16) {
        let place = random.below(frame.numbers.len() as u64) as usize;
        frame.numbers[place] = random.pick(&[2, 13, 256, 65_536, u32::MAX]);
    }
    frame
}

/// A frame of this command with fields of this kind, all else any number that fits.
pub fn of(random: &mut Random, byte: u8, channel: u32, kind: u8) -> Frame {
    let mut numbers: Vec<u32> = LIMITS.iter().map(|limit| random.up_to(*limit)).collect();
    numbers[BYTE] = byte.into();
    numbers[CHANNEL] = channel;
    numbers[KIND] = kind.into();
    // At an offset of 0 more counts, so it is drawn as often as all others.
    if random.once_in(2) {
        numbers[OFFSET] = 0;
    }
    numbers.extend(limits(kind).iter().map(|limit| random.up_to(*limit)));
    Frame { op: 6, numbers, ..Frame::default() }
}

/// The same frame with this packet and offset.
pub fn with(mut frame: Frame, packet: u32, offset: u32) -> Frame {
    frame.numbers[PACKET] = packet;
    frame.numbers[OFFSET] = offset;
    frame
}

fn line(model: &mut Model, frame: &Frame) -> String {
    let Some(piece) = piece(frame) else {
        return frame.bad();
    };
    if let Some(number) = model.refusal().or_else(|| refusal(&model.record, &piece)) {
        return model.reply(frame, number);
    }
    model.record = model.bench.setup(&model.record, &piece);
    model.reply(frame, 0)
}

/// What is set up, if every number fits.
fn piece(frame: &Frame) -> Option<Outgoing> {
    let kind = match frame.number(KIND) {
        kind @ 1..=12 => kind as u8,
        _ => return None,
    };
    let mut all = LIMITS.to_vec();
    all.extend(limits(kind));
    if all.iter().enumerate().any(|(place, limit)| frame.number(place) > *limit) {
        return None;
    }
    Some(Outgoing {
        offset: frame.number(OFFSET),
        length: frame.number(LENGTH) as u16,
        packet: frame.number(PACKET) == 1,
        byte: frame.number(BYTE) as u8,
        channel: frame.number(CHANNEL) as u8,
        number: frame.number(NUMBER) as u16,
        kind,
        fields: (FIELDS..all.len()).map(|place| frame.number(place)).collect(),
        ..Outgoing::default()
    })
}

/// Document 01's refusals of a sound record, in their order.
fn refusal(record: &Record, piece: &Outgoing) -> Option<u32> {
    let below = u32::from(piece.channel) < record.numbers[place::CHANNEL_COUNT];
    if !below && piece.channel != PEER {
        return Some(2);
    }
    if record.free_outgoing() == 0 {
        return Some(5);
    }
    (piece.byte & 15 != piece.kind).then_some(9)
}

#[cfg(test)]
mod tests {
    use super::*;
    use enet::Bench;

    /// A record with two channels, every counter at the edge.
    fn edge() -> Record {
        let mut record = Record::fresh(1_392);
        record.numbers[place::CHANNEL_COUNT] = 2;
        record.numbers[place::RELIABLE_NUMBER] = 65_535;
        record.numbers[place::OUTGOING_GROUP] = 65_535;
        record.channels[1].numbers = [65_535, 65_535, 7, 8];
        record
    }

    /// The record after a setup of this command on channel 1 or on the peer itself.
    fn after(byte: u8, channel: u8, packet: bool, offset: u32) -> Record {
        let kind = byte & 15;
        let fields = vec![9; limits(kind).len()];
        let piece = Outgoing { byte, channel, packet, offset, kind, fields, ..Outgoing::default() };
        Bench::new().setup(&edge(), &piece)
    }

    /// The counters: the peer's own, the group, the channel's reliable and unreliable number.
    fn counters(record: &Record) -> [u32; 4] {
        let [reliable, unreliable, ..] = record.channels[1].numbers;
        let numbers = &record.numbers;
        let own = numbers[place::RELIABLE_NUMBER];
        [own, numbers[place::OUTGOING_GROUP], reliable.into(), unreliable.into()]
    }

    #[test]
    fn channel_255_steps_the_peers_own_number_whatever_the_flags() {
        for byte in [5, 64 | 5, 128 | 5, 192 | 5] {
            assert_eq!(counters(&after(byte, 255, false, 0)), [0, 65_535, 65_535, 65_535]);
        }
    }

    #[test]
    fn flag_128_steps_the_reliable_number_and_clears_the_unreliable_before_flag_64_is_asked() {
        for byte in [128 | 6, 192 | 6] {
            assert_eq!(counters(&after(byte, 1, false, 0)), [65_535, 65_535, 0, 0]);
        }
    }

    #[test]
    fn flag_64_steps_the_group_alone() {
        assert_eq!(counters(&after(64 | 9, 1, true, 0)), [65_535, 0, 65_535, 65_535]);
    }

    #[test]
    fn without_flags_only_offset_0_steps_the_unreliable_number() {
        assert_eq!(counters(&after(7, 1, true, 0)), [65_535, 65_535, 65_535, 0]);
        assert_eq!(counters(&after(7, 1, true, 1)), [65_535; 4]);
    }

    #[test]
    fn command_7_gets_the_unreliable_number_and_command_9_the_group() {
        assert_eq!(after(7, 1, true, 1).outgoing_slots[0].fields, [65_535, 9]);
        assert_eq!(after(9, 1, true, 1).outgoing_slots[0].fields, [65_535, 9]);
        assert_eq!(after(64 | 9, 1, true, 1).outgoing_slots[0].fields, [0, 9]);
    }

    #[test]
    fn only_flag_128_with_a_packet_goes_to_send_reliable() {
        for (byte, packet, reliable) in
            [(134, true, true), (134, false, false), (6, true, false), (70, true, false)]
        {
            let record = after(byte, 1, packet, 0);
            assert_eq!(
                (record.send_reliable.length, record.outgoing.length),
                match reliable {
                    true => (1, 0),
                    false => (0, 1),
                }
            );
        }
    }
}
