//! Every input of a set: dispatch and receive where their rules turn.

use std::io;

use enet::record::{place, Incoming, Record, INCOMING};

use crate::{
    output::Output,
    random::Random,
    records::{self, block, frame, settings, sound, PACKET},
};

/// The seed of the numbers that a set leaves open.
const SEED: u64 = 1;

/// Fragment counts: none, one, some, those that need both words of marks.
pub const FRAGMENTS: [u32; 5] = [0, 1, 3, 33, 64];

/// Last numbers, so that a list counts past 65,535.
const LASTS: [u16; 3] = [0, 65_530, 65_535];

/// The lengths of a packet that fit a cell, at their ends.
const LENGTHS: [u32; 4] = [0, 1, 4_095, 4_096];

/// The number that a record leaves as the last, by document 01.
pub fn after(held: &Incoming) -> u16 {
    match held.fragments {
        0 => held.number,
        fragments => held.number.wrapping_add((fragments - 1) as u16),
    }
}

/// Lists of 0 to 12 from every last number, one of them a block of every fragment count, whole, with a gap or an
/// incomplete record at the start, in the middle or at the end.
pub fn write_dispatch(output: &mut Output) -> io::Result<()> {
    let mut random = Random::new(SEED);
    output.put(&settings(1_392, PACKET))?;
    for length in 0..=INCOMING {
        for last in LASTS {
            for fragments in FRAGMENTS {
                let mut stops = vec![None];
                for at in [0, length / 2, length.saturating_sub(1)] {
                    stops.extend([Some((at, true)), Some((at, false))]);
                }
                for stop in stops {
                    let record = list(&mut random, length, last, fragments, stop);
                    records::make(output, &record)?;
                    output.put(&frame(12, vec![0]))?;
                    output.put(&frame(12, vec![1]))?;
                }
            }
        }
    }
    output.put(&frame(15, vec![]))
}

/// A record of one channel, that holds so many, with a gap (true) or an incomplete record at a place, where the block is
/// too; else it is in the middle.
fn list(
    random: &mut Random,
    length: usize,
    last: u16,
    fragments: u32,
    stop: Option<(usize, bool)>,
) -> Record {
    let mut record = Record::fresh(1_392);
    record.numbers[place::CHANNEL_COUNT] = 1;
    record.channels[0].numbers = [7, 8, last, 9];
    let mut next = last.wrapping_add(1);
    let block = stop.map_or(length / 2, |(place, _)| place);
    for (place, slot) in random.shuffled(INCOMING).into_iter().take(length).enumerate() {
        if stop == Some((place, true)) {
            next = next.wrapping_add(1);
        }
        let remaining = u32::from(stop == Some((place, false)));
        record.incoming_slots[slot] =
            Incoming { byte: 134, number: next, remaining, length: 3, ..Incoming::default() };
        if place == block && fragments > 0 {
            // Without its last piece, where it is incomplete.
            let missing = u64::from(remaining) << (fragments - 1);
            block::put(&mut record, slot, 3, fragments, !missing);
        }
        next = after(&record.incoming_slots[slot]).wrapping_add(1);
        record.channels[0].list.push(slot);
    }
    sound::settle(&mut record);
    record
}

/// Dispatched from 0 to 12, of every length in turn, each taken out and once more.
pub fn write_receive(output: &mut Output) -> io::Result<()> {
    let mut random = Random::new(SEED);
    output.put(&settings(1_392, PACKET))?;
    for count in 0..=INCOMING {
        for first in 0..LENGTHS.len() {
            let mut record = Record::fresh(1_392);
            record.numbers[place::CHANNEL_COUNT] = 8;
            for (place, slot) in random.shuffled(INCOMING).into_iter().take(count).enumerate() {
                let length = LENGTHS[(first + place) % LENGTHS.len()];
                let channel = (place % 8) as u8;
                record.incoming_slots[slot] =
                    Incoming { byte: 73, channel, length, ..Incoming::default() };
                record.dispatched.push(slot);
            }
            sound::settle(&mut record);
            records::make(output, &record)?;
            for _ in 0..=count {
                output.put(&frame(13, vec![]))?;
            }
        }
    }
    output.put(&frame(15, vec![]))
}

#[cfg(test)]
mod tests {
    use super::*;

    #[test]
    fn a_done_dispatch_moves_and_stops_where_it_must() {
        let mut model = crate::model::Model::new();
        model.record = list(&mut Random::new(1), 5, 65_534, 3, Some((2, true)));
        model.record = model.bench.dispatch(&model.record, 0);
        assert_eq!(model.record.dispatched.items().len(), 2);
        assert_eq!(model.record.channels[0].numbers, [7, 8, 0, 0]);
    }
}
