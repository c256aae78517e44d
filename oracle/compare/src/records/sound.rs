//! Random records that are sound, so that everything else in them may be any number.

use std::iter::zip;

use enet::{
    limits,
    record::{place, Incoming, List, Outgoing, Record, CHANNELS, INCOMING, OUTGOING},
};

use super::block;
use crate::{damage::held, random::Random};

/// How long the lists are; as many channels as lengths are given are open.
#[derive(Default)]
pub struct Shape {
    pub sent: usize,
    pub send_reliable: usize,
    pub outgoing: usize,
    pub dispatched: usize,
    pub channels: Vec<usize>,
}

/// A record of some shape, now and then with something also where it does not count.
pub fn any(random: &mut Random) -> Record {
    let shape = shape(random);
    let mut record = shaped(random, &shape);
    if random.once_in(8) {
        scribble(&mut record, random);
    }
    record
}

/// A small record that shares most numbers with another, so that few frames make it of that one.
pub fn light(random: &mut Random, other: &Record) -> Record {
    let mut length = || random.below(3) as usize / 2;
    let (sent, send_reliable, outgoing) = (length(), length(), length());
    let channels: Vec<usize> = (0..length()).map(|_| length()).collect();
    let dispatched = if channels.is_empty() { 0 } else { length() };
    let shape = Shape { sent, send_reliable, outgoing, dispatched, channels };
    let mut record = shaped(random, &shape);
    for place in 0..record.numbers.len() {
        let decided = [place::MTU, place::CHANNEL_COUNT, place::WAITING].contains(&place);
        if !decided && !random.once_in(6) {
            record.numbers[place] = other.numbers[place];
        }
    }
    for (word, was) in zip(&mut record.words, &other.words) {
        if !random.once_in(12) {
            *word = *was;
        }
    }
    record
}

/// A record with at least two in each list, room in each pool, and a channel too few.
pub fn rich(random: &mut Random) -> Record {
    let count = 2 + random.below(3) as usize;
    let mut length = || 2 + random.below(8) as usize;
    let (sent, send_reliable, outgoing) = (length(), length(), length());
    let channels = vec![2; count];
    shaped(random, &Shape { sent, send_reliable, outgoing, dispatched: 2, channels })
}

/// A record as made new but for packets, two in each list and in each of two channels or more, none of them a block.
pub fn packets(random: &mut Random) -> Record {
    let channels = vec![2; 2 + random.below(2) as usize];
    let drawn = shaped(random, &Shape { dispatched: 2, channels, ..Shape::default() });
    let mut record = Record::fresh(1_392);
    record.numbers[place::STATE] = 5;
    record.numbers[place::CHANNEL_COUNT] = drawn.numbers[place::CHANNEL_COUNT];
    (record.dispatched, record.channels) = (drawn.dispatched, drawn.channels);
    record.incoming_slots = drawn.incoming_slots;
    block::strip(&mut record);
    record
}

/// A record whose lists have these lengths, over slots in any order, and 0 where it does not count.
pub fn shaped(random: &mut Random, shape: &Shape) -> Record {
    let mut record = Record::zero();
    for (place, number) in record.numbers.iter_mut().enumerate() {
        *number = random.up_to(place::limit(place));
    }
    record.words = std::array::from_fn(|_| random.up_to(u32::MAX));
    record.numbers[place::MTU] = 576 + random.up_to(4_096 - 576);
    record.numbers[place::CHANNEL_COUNT] = shape.channels.len() as u32;
    if !random.once_in(4) {
        record.numbers[place::STATE] = random.up_to(9);
    }

    let mut slots = random.shuffled(OUTGOING).into_iter();
    fill(&mut record.sent, shape.sent, &mut slots);
    fill(&mut record.send_reliable, shape.send_reliable, &mut slots);
    fill(&mut record.outgoing, shape.outgoing, &mut slots);
    for slot in record.used_outgoing() {
        record.outgoing_slots[slot] = outgoing(random, shape.channels.len());
    }
    for slot in record.sent.slots() {
        let attempts = &mut record.outgoing_slots[slot].attempts;
        *attempts = (*attempts).max(1);
    }

    let mut slots = random.shuffled(INCOMING).into_iter();
    fill(&mut record.dispatched, shape.dispatched, &mut slots);
    for slot in record.dispatched.slots() {
        let channel = random.below(shape.channels.len() as u64) as usize;
        record.incoming_slots[slot] = incoming(random, channel);
    }
    for (number, (channel, length)) in zip(&mut record.channels, &shape.channels).enumerate() {
        channel.numbers = std::array::from_fn(|_| random.up_to(65_535) as u16);
        fill(&mut channel.list, *length, &mut slots);
        for slot in channel.list.slots() {
            record.incoming_slots[slot] = incoming(random, number);
        }
    }
    block::choose(&mut record);
    settle(&mut record);
    record
}

/// Makes the waiting total the sum of the lengths held.
pub fn settle(record: &mut Record) {
    record.numbers[place::WAITING] = held(record);
}

/// Any shape that the pools allow; without a channel nothing can have come in.
fn shape(random: &mut Random) -> Shape {
    let mut outgoing = share(random, OUTGOING, 3).into_iter();
    let mut next = || outgoing.next().expect("three shares");
    let (sent, send_reliable, outgoing) = (next(), next(), next());
    let count = random.up_to(CHANNELS as u32) as usize;
    let pool = if count == 0 { 0 } else { INCOMING };
    let mut channels = share(random, pool, count + 1);
    let dispatched = channels.remove(0);
    Shape { sent, send_reliable, outgoing, dispatched, channels }
}

/// Splits a pool, or a part of it, into so many lengths; now and then one takes all.
fn share(random: &mut Random, pool: usize, parts: usize) -> Vec<usize> {
    let mut lengths = vec![0; parts];
    let greedy = random.once_in(4);
    let first = random.below(parts as u64) as usize;
    for _ in 0..random.up_to(pool as u32) {
        let part = if greedy { first } else { random.below(parts as u64) as usize };
        lengths[part] += 1;
    }
    lengths
}

fn fill(list: &mut List, length: usize, slots: &mut impl Iterator<Item = usize>) {
    for slot in slots.take(length) {
        list.push(slot);
    }
}

/// A command whose byte names its kind, on the peer itself or an open channel.
fn outgoing(random: &mut Random, count: usize) -> Outgoing {
    let kind = 1 + random.below(12) as u8;
    let channel = match count {
        0 => 255,
        _ if random.once_in(4) => 255,
        _ => random.below(count as u64) as u8,
    };
    Outgoing {
        reliable: random.up_to(65_535) as u16,
        unreliable: random.up_to(65_535) as u16,
        sent_time: random.up_to(u32::MAX),
        timeout: random.up_to(u32::MAX),
        queue_time: random.up_to(u32::MAX),
        offset: random.up_to(u32::MAX),
        length: random.up_to(65_535) as u16,
        attempts: random.up_to(65_535) as u16,
        packet: random.once_in(2),
        byte: kind | (random.next() as u8 & 0xF0),
        channel,
        number: random.up_to(65_535) as u16,
        kind,
        fields: limits(kind).iter().map(|limit| random.up_to(*limit)).collect(),
    }
}

fn incoming(random: &mut Random, channel: usize) -> Incoming {
    Incoming {
        byte: random.next() as u8,
        channel: channel as u8,
        number: random.up_to(65_535) as u16,
        fragments: random.up_to(u32::MAX),
        remaining: random.up_to(u32::MAX),
        length: random.up_to(4_096),
    }
}

/// Writes anything where it does not count: free slots, cells past a length, channels not open.
fn scribble(record: &mut Record, random: &mut Random) {
    let (out, into) = (record.used_outgoing(), record.used_incoming());
    for slot in (0..OUTGOING).filter(|slot| !out.contains(slot)) {
        let byte = random.next() as u8;
        record.outgoing_slots[slot] = Outgoing { byte, ..outgoing(random, 256) };
    }
    for slot in (0..INCOMING).filter(|slot| !into.contains(slot)) {
        let (channel, length) = (random.below(256) as usize, random.up_to(65_535));
        record.incoming_slots[slot] = Incoming { length, ..incoming(random, channel) };
    }
    let open = record.open_channels().len();
    for channel in &mut record.channels[open..] {
        channel.numbers = std::array::from_fn(|_| random.up_to(65_535) as u16);
        channel.list.length = random.up_to(65_535) as u16;
    }
    let mains = [&mut record.sent, &mut record.send_reliable, &mut record.outgoing];
    let shut = record.channels.iter_mut().enumerate();
    let mut lists: Vec<(&mut List, bool)> = mains.into_iter().map(|list| (list, true)).collect();
    lists.push((&mut record.dispatched, true));
    lists.extend(shut.map(|(number, channel)| (&mut channel.list, number < open)));
    for (list, counts) in lists {
        let kept = if counts { list.items().len() } else { 0 };
        for cell in &mut list.cells[kept..] {
            *cell = random.up_to(65_535) as u16;
        }
    }
}

#[cfg(test)]
mod tests {
    use super::*;
    use crate::damage::damaged;

    #[test]
    fn sound_records_are_not_damaged() {
        let mut random = Random::new(1);
        for _ in 0..500 {
            assert!(!damaged(&any(&mut random)));
            let rich = rich(&mut random);
            assert!(!damaged(&rich));
            assert!(!damaged(&light(&mut random, &rich)));
        }
    }
}
