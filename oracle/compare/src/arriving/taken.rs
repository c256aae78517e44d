//! Random sequences of dispatch and receive.

use std::io;

use enet::record::{place, Record, INCOMING};

use super::sets::{after, FRAGMENTS};
use crate::{
    frame::Frame,
    output::Output,
    random::Random,
    records::{
        self, block, frame, harm, settings,
        sound::{self, Shape},
        PACKET,
    },
    script::miscount,
    sequence,
};

/// A script of so many calls of ops 12 and 13, in sequences that start from random records.
pub fn write(output: &mut Output, seed: u64, count: u64) -> io::Result<()> {
    sequence::write(output, seed, count, open, |(), output, random| call(output, random))
}

/// The settings of the start and a record, and how many calls.
fn open(output: &mut Output, random: &mut Random) -> io::Result<((), u64)> {
    output.put(&settings(1_392, PACKET))?;
    let record = match random.below(24) {
        0 => harm::any(random),
        1 => sound::any(random),
        _ => waiting(random),
    };
    records::make(output, &record)?;
    Ok(((), 4 + random.below(24)))
}

/// A call, now and then with numbers missing, or under settings that refuse it.
fn call(output: &mut Output, random: &mut Random) -> io::Result<()> {
    let mut asked = drawn(random, output.model.record.numbers[place::CHANNEL_COUNT]);
    if random.once_in(32) {
        miscount(&mut asked, random);
    }
    sequence::ask(output, random, &asked, 64, &sequence::BAD)?;
    sequence::look(output, random)
}

/// A dispatch or a receive that suits a record of so many channels.
pub fn drawn(random: &mut Random, count: u32) -> Frame {
    match random.below(32) {
        0 => frame(12, vec![random.pick(&[count.min(255), 8, 255, 256, u32::MAX])]),
        1..=15 => frame(12, vec![random.below(u64::from(count.clamp(1, 8))) as u32]),
        _ => frame(13, vec![]),
    }
}

/// A record whose channels hold packets, most of them next to one another.
pub fn waiting(random: &mut Random) -> Record {
    let count = 1 + random.below(3) as usize;
    let dispatched = random.below(4) as usize;
    let mut left = INCOMING - dispatched;
    let mut channels = Vec::new();
    for _ in 0..count {
        let length = random.below(left as u64 + 1) as usize;
        left -= length;
        channels.push(length);
    }
    let mut record = sound::shaped(random, &Shape { dispatched, channels, ..Shape::default() });
    block::strip(&mut record);
    for channel in 0..count {
        let any = random.up_to(65_535) as u16;
        let last = random.pick(&[0, 65_530, 65_535, any]);
        record.channels[channel].numbers[2] = last;
        let mut next = last.wrapping_add(1);
        for slot in record.channels[channel].list.slots().collect::<Vec<_>>() {
            let held = &mut record.incoming_slots[slot];
            if random.once_in(10) {
                next = next.wrapping_add(1 + random.below(3) as u16);
            }
            held.number = next;
            held.remaining = if random.once_in(10) { 1 + random.up_to(5) } else { 0 };
            let (left, length) = (held.remaining, 8 * held.length.max(1));
            let pieces = random.pick(&FRAGMENTS);
            // The first that comes to it; with any pieces missing.
            if pieces > 0 && record.blocks().is_empty() {
                block::put(&mut record, slot, length, pieces, !u64::from(left));
            }
            next = after(&record.incoming_slots[slot]).wrapping_add(1);
        }
    }
    sound::settle(&mut record);
    record
}

#[cfg(test)]
mod tests {
    use super::*;
    use crate::met::{assert_met, replies};

    #[test]
    fn every_reply_is_met() {
        let met = replies(|output| write(output, 1, 20_000));
        let replies =
            ["12 0", "12 2", "12 11", "12 13", "12 bad", "13 0 0", "13 0 1", "13 11", "13 13"];
        assert_met(&met, 10, &replies);
    }
}
