//! Records to write snapshots of, and snapshots that something happened to.

use enet::{
    limits,
    record::{place, Record, INCOMING},
};

use super::{
    groups::{self, groups, padded},
    reader::{spans, Span, What},
    writer,
};
use crate::{
    arriving::taken,
    model::{BUFFER, CELL, SECOND, STORE},
    piecing,
    random::Random,
    records::{
        block, harm, odd,
        sound::{self, settle, shaped, Shape},
    },
};

/// The snapshot of the record with any stored bytes.
pub fn snapshot(random: &mut Random, record: &Record) -> Vec<u8> {
    let mut bytes = writer::write(record, &[0; STORE], &[0; SECOND]);
    let used = record.used_incoming().into_iter();
    let stored = used.map(|slot| writer::stored(&record.incoming_slots[slot])).sum();
    bytes.truncate(bytes.len() - stored);
    bytes.extend(random.bytes(stored));
    bytes
}

/// A sound record of any kind, mostly with few stored bytes.
pub fn any(random: &mut Random) -> Record {
    let mut record = match random.below(8) {
        0 => random.pick(odd::ODDS).1(random),
        1 => sound::rich(random),
        2 => sound::packets(random),
        3 => taken::waiting(random),
        4 => piecing::draw::holding(random),
        5 => everything(random),
        _ => sound::any(random),
    };
    if !random.once_in(16) {
        thin(random, &mut record);
    }
    record
}

/// Leaves few bytes in each packet and in the block.
pub fn thin(random: &mut Random, record: &mut Record) {
    for slot in record.used_incoming() {
        let packet = &mut record.incoming_slots[slot];
        let least = u32::from(packet.is_block());
        packet.length = packet.length.min(least + random.below(12) as u32);
    }
    settle(record);
}

/// Every command, all channels with a packet each, two dispatched, and a block half done.
pub fn everything(random: &mut Random) -> Record {
    let channels = vec![1; 8];
    let shape = Shape { sent: 5, send_reliable: 4, outgoing: 3, dispatched: 2, channels };
    let mut record = shaped(random, &shape);
    name_commands(random, &mut record);
    block::strip(&mut record);
    let slot = random.pick(&record.used_incoming().into_iter().collect::<Vec<_>>());
    block::put(&mut record, slot, 9, 40, random.next() | 1);
    thin(random, &mut record);
    record
}

/// Makes the used outgoing slots one of each command in turn, by rising number.
pub fn name_commands(random: &mut Random, record: &mut Record) {
    for (slot, kind) in record.used_outgoing().into_iter().zip((1..=12).cycle()) {
        name_command(random, record, slot, kind);
    }
}

/// Makes the command in this slot one of this kind, with any fields.
pub fn name_command(random: &mut Random, record: &mut Record, slot: usize, kind: u8) {
    let command = &mut record.outgoing_slots[slot];
    command.byte = kind | command.byte & 0xF0;
    command.kind = kind;
    command.fields = limits(kind).iter().map(|limit| random.up_to(*limit)).collect();
}

/// The longest snapshot: every number at its end, both pools used up, a block of 32,768 bytes and packets of 4,096.
pub fn longest(random: &mut Random) -> Record {
    let channels = vec![1; 8];
    let shape = Shape { sent: 32, dispatched: INCOMING - 8, channels, ..Shape::default() };
    let mut record = shaped(random, &shape);
    for slot in record.used_outgoing() {
        name_command(random, &mut record, slot, 2);
        let command = &mut record.outgoing_slots[slot];
        (command.byte, command.packet) = (0xF2, true);
        command.fields = limits(2);
        (command.sent_time, command.timeout, command.queue_time) = (u32::MAX, u32::MAX, u32::MAX);
        (command.offset, command.number) = (u32::MAX, u16::MAX);
        (command.reliable, command.unreliable) = (u16::MAX, u16::MAX);
        (command.length, command.attempts) = (u16::MAX, u16::MAX);
    }
    for slot in record.used_incoming() {
        let packet = &mut record.incoming_slots[slot];
        (packet.byte, packet.number, packet.fragments) = (255, u16::MAX, 0);
        (packet.remaining, packet.length) = (u32::MAX, CELL as u32);
    }
    block::put_whole(&mut record, 5, SECOND as u32, 64);
    for channel in &mut record.channels {
        channel.numbers = [u16::MAX; 4];
    }
    for place in 0..place::ALL {
        if ![place::MTU, place::CHANNEL_COUNT].contains(&place) {
            record.numbers[place] = place::limit(place);
        }
    }
    record.words = [u32::MAX; 32];
    settle(&mut record);
    record
}

/// A snapshot to mutate, of a sound record with few stored bytes or now and then of a damaged one.
pub fn base(random: &mut Random) -> Vec<u8> {
    let mut record = any(random);
    if random.once_in(24) {
        record = harm::any(random);
    } else if !random.once_in(48) {
        thin(random, &mut record);
    }
    snapshot(random, &record)
}

/// The snapshot after something happened to it, or noise.
pub fn mutated(random: &mut Random, base: &[u8]) -> Vec<u8> {
    let mut bytes = base.to_vec();
    match random.below(32) {
        0 => bytes = noise(random),
        _ => {
            for _ in 0..1 + random.below(2) {
                mutate(random, &mut bytes);
            }
        }
    }
    bytes.truncate(BUFFER);
    bytes
}

/// Any bytes behind the edition.
fn noise(random: &mut Random) -> Vec<u8> {
    let length = random.below(300) as usize;
    let mask = random.pick(&[0x7F, 0x0F, 0xFF]);
    let bytes = random.bytes(length).into_iter().map(|byte| byte & mask);
    [writer::EDITION as u8].into_iter().chain(bytes).collect()
}

/// A flipped bit, a byte more, less or other, the end cut or doubled, or a number in another's place or form.
fn mutate(random: &mut Random, bytes: &mut Vec<u8>) {
    if bytes.is_empty() {
        return bytes.push(1);
    }
    let place = place(random, bytes);
    match random.below(16) {
        0..=4 => bytes[place] ^= 1 << random.below(8),
        5 => bytes.truncate(place),
        6 => bytes.extend_from_within(place..),
        7 => bytes.insert(place, random.next() as u8),
        8 => drop(bytes.remove(place)),
        9 => bytes[place] = random.next() as u8,
        10 => bytes.push(random.next() as u8),
        _ => renumber(random, bytes),
    }
}

/// Mostly where the numbers stand.
fn place(random: &mut Random, bytes: &[u8]) -> usize {
    let numbers = spans(bytes).last().map_or(bytes.len(), |last| last.at.end);
    let bound = if random.once_in(8) { bytes.len() } else { numbers };
    random.below(bound as u64) as usize
}

/// Another number in the place of one.
fn renumber(random: &mut Random, bytes: &mut Vec<u8>) {
    let spans = spans(bytes);
    if spans.is_empty() {
        return;
    }
    let Span { what, at, limit } = &spans[random.below(spans.len() as u64) as usize];
    let near = random.below(40);
    let old = groups::number(bytes, at.start).map_or(0, |(number, _)| number);
    let form = match (what, random.below(8)) {
        (_, 0) => padded(old, at.len() + 1),
        (_, 1) => groups(u64::from(*limit) + random.below(2)),
        (What::Length(pool), _) => groups(*pool as u64 + random.below(3) - 1),
        (_, 2..=4) => groups(near),
        (_, 5) => groups(old + 1),
        _ => groups(random.up_to(*limit).into()),
    };
    bytes.splice(at.clone(), form);
}
