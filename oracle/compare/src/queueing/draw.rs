//! Random records that hold packets, and arrivals that suit them.

use enet::record::{place, Incoming, Record, INCOMING};

use super::{TAKEN, WINDOW};
use crate::{
    model::{Settings, CONNECTED, DISCONNECT_LATER},
    ops::{arrival::Came, reliable::LAST},
    random::Random,
    records::{block, sound},
};

/// A sound record whose channels hold packets: mostly in order, now and then not, or the same number twice.
pub fn holding(random: &mut Random) -> Record {
    let mut record = Record::fresh(1_392);
    let count = 1 + random.below(2) as usize;
    record.numbers[place::CHANNEL_COUNT] = count as u32;
    record.numbers[place::STATE] = match random.below(16) {
        0 => random.up_to(9),
        1 => DISCONNECT_LATER,
        _ => CONNECTED,
    };
    record.numbers[place::FLAGS] = random.below(4) as u32;
    let mut slots = random.shuffled(INCOMING).into_iter();
    let mut left = if random.once_in(8) { INCOMING } else { random.below(12) as usize };
    let dispatched = random.below(3).min(left as u64) as usize;
    for slot in slots.by_ref().take(dispatched) {
        record.incoming_slots[slot] = held(random, 0, 0);
        record.dispatched.push(slot);
    }
    left -= dispatched;
    for channel in 0..count {
        let any = random.up_to(65_535) as u16;
        let last = random.pick(&[0, 1, 4_095, 32_767, 32_768, 65_530, 65_535, any]);
        record.channels[channel].numbers = [1, 2, last, 4];
        let length =
            if channel + 1 == count { left } else { random.below(left as u64 + 1) as usize };
        left -= length;
        for (distance, slot) in distances(random, length).into_iter().zip(slots.by_ref()) {
            record.incoming_slots[slot] = held(random, channel, last.wrapping_add(distance));
            record.channels[channel].list.push(slot);
        }
    }
    block::choose(&mut record);
    sound::settle(&mut record);
    record
}

/// A packet, mostly whole; at most one that has fragments stays a block.
fn held(random: &mut Random, channel: usize, number: u16) -> Incoming {
    let fragments = if random.once_in(6) { random.pick(&[1, 2, 3, 65_536]) } else { 0 };
    let remaining = u32::from(random.once_in(12));
    let length = random.below(4) as u32;
    Incoming { byte: 134, channel: channel as u8, number, fragments, remaining, length }
}

/// So many distances: rising, then in three of eight records with some of them behind, twice or out of order.
fn distances(random: &mut Random, length: usize) -> Vec<u16> {
    let mut next = random.pick(&[0, 1, 1, 1, 24_570, 28_660, 32_760]);
    let mut distances = Vec::new();
    for _ in 0..length {
        next += 1 + random.below(3).saturating_sub(1) as u16;
        distances.push(next);
    }
    for _ in 0..random.below(8).saturating_sub(4) {
        let place = random.below(length.max(1) as u64) as usize;
        let other = random.below(length.max(1) as u64) as usize;
        match distances.get(place).copied() {
            Some(_) if random.once_in(4) => distances[place] = random.pick(&[0, 1, 65_535, 65_534]),
            Some(own) if random.once_in(3) => distances[other] = own,
            Some(_) => distances.swap(place, other),
            None => {}
        }
    }
    distances
}

/// Settings and an arrival that suit the record.
pub fn arrival<'a>(
    random: &mut Random,
    record: &Record,
    datagram: &'a [u8],
) -> (Settings, Came<'a>) {
    let channel = random.below(u64::from(record.numbers[place::CHANNEL_COUNT])) as u8;
    let own = &record.channels[usize::from(channel)];
    let last = own.numbers[LAST];
    let numbers: Vec<u16> =
        own.list.slots().map(|slot| record.incoming_slots[slot].number).collect();
    let near = |random: &mut Random, number: u16| {
        number.wrapping_add(random.below(3) as u16).wrapping_sub(1)
    };
    let number = match random.below(8) {
        0..=2 if !numbers.is_empty() => {
            let held = random.pick(&numbers);
            near(random, held)
        }
        3 => near(random, last.wrapping_add(TAKEN * WINDOW - last % WINDOW)),
        4 => near(random, last.wrapping_add(32_768)),
        5 => random.up_to(65_535) as u16,
        _ => last.wrapping_add(1 + random.below(12) as u16),
    };
    let length = match random.below(16) {
        0 => random.pick(&[4_095, 4_096, 4_097, 4_900]),
        _ => random.below(5) as u32,
    };
    let end = datagram.len() as u32;
    let place = if random.once_in(24) { end - random.below(3) as u32 } else { 8 };
    let total = record.numbers[place::WAITING];
    let waiting = if random.once_in(8) { total + random.below(2) as u32 } else { 1 << 25 };
    let packet = if random.once_in(24) { length.max(2) - 1 } else { 1 << 25 };
    let byte = 6 | (random.below(16) as u8) << 4;
    let settings = Settings { packet, waiting, ..Settings::START };
    (settings, Came { byte, channel, number, group: 0, length, place, datagram })
}
