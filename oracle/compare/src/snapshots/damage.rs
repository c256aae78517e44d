//! The set `snapshot-damage`: damaged records, which are not written, and what reads as one, which is not restored.

use std::io;

use enet::record::{place, Record};

use super::{
    draw,
    groups::groups,
    laying::{carry, lay, open, restore, show, stores, write, write_all},
    reader::{spans, What},
    widths::in_place,
};
use crate::{
    arriving::connected,
    model::BUFFER,
    output::Output,
    random::Random,
    records::{self, block, frame, harm::HARMS, sound},
};

/// The seed of all that the set leaves open.
const SEED: u64 = 1;

/// All of the set.
pub fn write_set(output: &mut Output) -> io::Result<()> {
    let random = &mut Random::new(SEED);
    open(output)?;
    for (_, make) in HARMS {
        let record = make(random);
        case(output, random, &record)?;
    }
    write_counts(output, random)?;
    write_lengths(output, random)?;
    write_blocks(output, random)?;
    stores(output)
}

/// A thin slice of it.
pub fn write_slice(output: &mut Output) -> io::Result<()> {
    let random = &mut Random::new(SEED);
    open(output)?;
    write_counts(output, random)?;
    write_blocks(output, random)
}

/// The damaged record made by the bench is not written, whatever edition and room; a snapshot restores over it. Then the
/// damaged snapshot is not restored, nor one byte less or more of it.
fn case(output: &mut Output, random: &mut Random, record: &Record) -> io::Result<()> {
    records::make(output, record)?;
    for (edition, room) in [(1, BUFFER), (1, 0), (2, BUFFER)] {
        output.put(&frame(33, vec![edition, room as u32]))?;
    }
    output.put(&show(0, 4))?;
    let sound = connected(1 + random.below(8) as u32);
    let bytes = draw::snapshot(random, &sound);
    carry(output, &bytes)?;
    let bytes = draw::snapshot(random, record);
    lay(output, &bytes)?;
    for count in [bytes.len(), bytes.len() - 1, bytes.len() + 1] {
        output.put(&restore(count))?;
    }
    stores(output)
}

/// Channel counts before eight channels, and before as many as they say.
fn write_counts(output: &mut Output, random: &mut Random) -> io::Result<()> {
    let bytes = draw::snapshot(random, &connected(8));
    let all = spans(&bytes);
    let count = &all[1 + place::CHANNEL_COUNT];
    for other in [0, 1, 7, 8, 9, 16, 255, 256, 65_536, u32::MAX] {
        carry(output, &in_place(&bytes, count, &groups(other.into())))?;
    }
    // A ninth channel is left over.
    let nine = in_place(&bytes, count, &[9]);
    let end = nine.len() - 2;
    let mut nine_channels = nine.clone();
    nine_channels.splice(end..end, [0; 5]);
    carry(output, &nine_channels).map(drop)
}

/// Lengths around the limit of a packet and of a block, each with as many bytes as they say and as the limit says.
fn write_lengths(output: &mut Output, random: &mut Random) -> io::Result<()> {
    let lengths = [4_095, 4_096, 4_097, 8_192, 32_767, 32_768, 32_769, 65_536, u32::MAX];
    for pieces in [0, 2] {
        for length in lengths {
            let record = held(length, pieces);
            let bytes = draw::snapshot(random, &record);
            carry(output, &bytes)?;
            output.put(&restore(bytes.len() - 1))?;
            output.put(&restore(bytes.len() + 1))?;
            // As many as it says, where the buffer has room for them.
            let numbers = spans(&bytes).last().map_or(0, |last| last.at.end);
            if numbers + length as usize <= BUFFER {
                output.put(&restore(numbers + length as usize))?;
            }
            output.put(&write(bytes.len()))?;
        }
    }
    Ok(())
}

/// A record that holds one packet, or a block of so many pieces, of this length.
fn held(length: u32, pieces: u32) -> Record {
    let mut record = connected(1);
    record.channels[0].list.push(4);
    record.incoming_slots[4].length = length;
    if pieces > 0 {
        block::put(&mut record, 4, length, pieces, 1);
    }
    sound::settle(&mut record);
    record
}

/// Two blocks, each with its bytes; with the marks of the one, of the other, and none.
fn write_blocks(output: &mut Output, random: &mut Random) -> io::Result<()> {
    for marks in [[0, 0], [1, 0], [3, 0], [0, 1]] {
        let mut record = held(7, 2);
        record.dispatched.push(9);
        let other = &mut record.incoming_slots[9];
        (other.fragments, other.remaining, other.length) = (1, 1, 5);
        record.marks = marks;
        sound::settle(&mut record);
        let mut bytes = draw::snapshot(random, &record);
        carry(output, &bytes)?;
        // The second's bytes left out.
        bytes.truncate(bytes.len() - 7);
        carry(output, &bytes)?;
    }
    // Without its fragments the slot is a packet, and its marks are marks of no block.
    let record = held(7, 2);
    let bytes = draw::snapshot(random, &record);
    carry(output, &bytes)?;
    output.put(&write_all())?;
    let all = spans(&bytes);
    let byte = all.iter().position(|span| span.what == What::Byte).expect("one is used");
    for fragments in [0, 1, 2, 3, 64, 65] {
        carry(output, &in_place(&bytes, &all[byte + 3], &groups(fragments)))?;
    }
    Ok(())
}

#[cfg(test)]
mod tests {
    use super::*;
    use crate::met::{assert_met, replies};

    #[test]
    fn the_set_meets_every_reply() {
        let met = replies(write_set);
        assert_met(&met, HARMS.len(), &["34 0", "34 15", "33 13"]);
        assert_met(&met, 70, &["34 13"]);
    }
}
