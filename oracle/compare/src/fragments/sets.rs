//! Every input of a set: pieces where their rules turn.

use std::io;

use enet::record::{place, Incoming, Record, INCOMING};

use super::cut::Block;
use crate::{
    arriving::{
        connected,
        order::{self, Cause},
        payload::{self, Asked},
        start,
    },
    frame::Frame,
    model::{Settings, CONNECTED, DISCONNECT_LATER, PIECES},
    ops::{reliable::LAST, store::whole_second},
    output::Output,
    random::Random,
    records::{self, block, frame, set, sound},
};

/// The seed of the numbers that a set leaves open.
const SEED: u64 = 1;

/// Last numbers, and distances from them.
const LASTS: [u16; 4] = [0, 32_767, 65_534, 65_535];
const DISTANCES: [u16; 8] = [0, 1, 2, 28_671, 28_672, 32_767, 32_768, 65_535];

/// The numbers held, by how far they are from the piece's start; the block is that in the middle.
const HELD: [&[i16]; 9] = [
    &[],
    &[0],
    &[1],
    &[-1, 0, 1],
    &[-2, -1, 2],
    &[-5, -4, -3, -2, -1, 0, 2, 3, 4, 5, 6],
    &[2, 0, -1],
    &[0, 0, 1],
    &[-1, -1, 1],
];

/// What is held in the middle: a packet, a block without its last piece or with that alone, a whole one.
const MARKED: [Option<u64>; 4] = [None, Some(0b011), Some(0b100), Some(0b111)];

/// Pieces and bytes of the block.
const COUNT: u32 = 3;
const TOTAL: u32 = 9;

/// What refuses a piece or lets it pass over, in the order in which it is asked.
const CAUSES: &[Cause] = &[
    |case| case.settings.store -= 1,
    |case| case.settings.second -= 1,
    |case| case.record.marks[1] = 1,
    |case| case.asked.numbers[0] ^= 15,
    |case| case.record.numbers[place::STATE] = 7,
    |case| case.asked.bytes.truncate(2),
    |case| case.record.numbers[place::STATE] = DISCONNECT_LATER,
    |case| case.asked.numbers[5] = 65,
    |case| case.settings.waiting = 0,
];

/// All of the set.
pub fn write(output: &mut Output) -> io::Result<()> {
    let mut random = Random::new(SEED);
    for last in LASTS {
        for distance in DISTANCES {
            write_held(output, &mut random, (last, distance), &HELD, &[5, 6])?;
        }
    }
    start(output)?;
    write_fields(output, &mut random)?;
    for count in 1..=PIECES {
        write_orders(output, &mut random, count)?;
    }
    let record = connected(2);
    let asked = |length, place| frame(18, vec![136, 1, 7, 1, length, 2, 1, 32_768, 0, place]);
    payload::write(output, &mut random, &record, &Asked { frame: asked, store: 1 })?;
    order::write(output, &record, &three(), CAUSES)?;
    order::write_each(output, &mut random, &record, &three())
}

/// A thin slice of it.
pub fn write_slice(output: &mut Output) -> io::Result<()> {
    let mut random = Random::new(SEED);
    write_held(output, &mut random, (65_534, 1), &HELD[1..4], &[CONNECTED])?;
    start(output)?;
    for count in [2, 34] {
        write_orders(output, &mut random, count)?;
    }
    order::write_alone(output, &connected(2), &three(), CAUSES)
}

/// The second piece of three, of three bytes, next in turn.
fn three() -> Frame {
    Frame { op: 18, numbers: vec![136, 1, 2, 1, 3, COUNT, 1, TOTAL, 3, 0], bytes: vec![1, 2, 3] }
}

/// Every list with every block in it and every room, and every piece of the block that has this start.
fn write_held(
    output: &mut Output,
    random: &mut Random,
    (last, distance): (u16, u16),
    lists: &[&[i16]],
    states: &[u32],
) -> io::Result<()> {
    let own = last.wrapping_add(distance);
    for held in lists {
        for marked in MARKED {
            for state in states {
                for full in [false, true] {
                    let mut record = holding(random, last, own, held, marked);
                    record.numbers[place::STATE] = *state;
                    if full {
                        fill(&mut record);
                    }
                    remake(output, &record, || Settings::START)?;
                    let block = Block { channel: 1, start: own, total: TOTAL, cut: 3 };
                    for asked in block.pieces(random) {
                        output.put(&asked)?;
                    }
                }
            }
        }
    }
    output.put(&whole_second())?;
    output.put(&frame(15, vec![]))
}

/// A connected record whose channel 1 has this last number and holds these; the middle one is a block with these pieces.
fn holding(random: &mut Random, last: u16, own: u16, held: &[i16], marked: Option<u64>) -> Record {
    let mut record = connected(2);
    record.channels[1].numbers = [7, 8, last, 9];
    for (more, slot) in held.iter().zip(random.shuffled(INCOMING)) {
        let number = own.wrapping_add_signed(*more);
        let (byte, length) = (random.pick(&[134, 136]), random.below(9) as u32);
        record.incoming_slots[slot] =
            Incoming { byte, channel: 1, number, length, ..Incoming::default() };
        record.channels[1].list.push(slot);
    }
    let middle = record.channels[1].list.slots().nth(held.len() / 2);
    if let (Some(slot), Some(marked)) = (middle, marked) {
        block::put(&mut record, slot, TOTAL, COUNT, marked);
    }
    sound::settle(&mut record);
    record
}

/// Takes every slot that is left for a dispatched packet.
fn fill(record: &mut Record) {
    while let Some(slot) = record.free_incoming() {
        record.incoming_slots[slot] = Incoming { byte: 73, length: 1, ..Incoming::default() };
        record.dispatched.push(slot);
    }
    sound::settle(record);
}

/// Makes the record, and the settings, where the last call changed any of it.
fn remake(
    output: &mut Output,
    record: &Record,
    settings: impl FnOnce() -> Settings,
) -> io::Result<()> {
    if output.model.record.row() == record.row() {
        return Ok(());
    }
    output.put(&set(&settings()))?;
    records::make(output, record)
}

/// Fields around their ends, of a first piece and of a later one.
fn write_fields(output: &mut Output, random: &mut Random) -> io::Result<()> {
    let first = connected(2);
    let later = holding(random, 0, 1, &[0], Some(0b001));
    for record in [&first, &later] {
        for packet in [TOTAL - 1, TOTAL, Settings::START.packet] {
            output.put(&set(&Settings { packet, ..Settings::START }))?;
            for count in [0, 1, COUNT, 64, 65] {
                for piece in [0, 1, COUNT - 1, COUNT, 63, 64] {
                    for total in [0, 1, TOTAL - 1, TOTAL, TOTAL + 1, 32_768, 32_769] {
                        for (offset, length) in [(0, 0), (0, 9), (8, 0), (8, 1), (8, 2), (9, 0)] {
                            let kept = output.model.settings;
                            remake(output, record, || kept)?;
                            let numbers =
                                vec![136, 1, 7, 1, length, count, piece, total, offset, 0];
                            let bytes = random.bytes(9);
                            output.put(&Frame { op: 18, numbers, bytes })?;
                        }
                    }
                }
            }
        }
    }
    output.put(&set(&Settings::START))
}

/// A block of so many pieces in order, from the end, and in any order, every piece twice; taken out each time.
fn write_orders(output: &mut Output, random: &mut Random, count: u32) -> io::Result<()> {
    for turn in 0..3 {
        let mut record = connected(2);
        let last = random.pick(&[0, 65_500, 65_535]);
        record.channels[0].numbers[LAST] = last;
        records::make(output, &record)?;
        let cut = 1 + random.below(3) as u32;
        let total = cut * (count - 1) + 1 + random.below(cut.into()) as u32;
        let block = Block { channel: 0, start: last.wrapping_add(1), total, cut };
        let pieces = block.pieces(random);
        let mut order = random.shuffled(count as usize);
        match turn {
            0 => order.sort(),
            1 => order.sort_by(|a, b| b.cmp(a)),
            _ => {}
        }
        for place in order {
            output.put(&pieces[place])?;
            output.put(&pieces[random.below(count.into()) as usize])?;
        }
        output.put(&frame(17, vec![0, total + 1, 1]))?;
        output.put(&frame(15, vec![]))?;
        output.put(&frame(13, vec![]))?;
    }
    output.put(&whole_second())
}

#[cfg(test)]
mod tests {
    use super::*;
    use crate::met::{assert_met, replies};

    #[test]
    fn the_set_meets_every_reply() {
        let met = replies(write);
        let replies = [
            "18 0 0", "18 0 1", "18 6", "18 7", "18 8", "18 9", "18 11", "18 13", "18 14",
            "18 bad", "13 0 2",
        ];
        assert_met(&met, 1, &replies);
    }
}
