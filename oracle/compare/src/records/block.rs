//! Blocks in records.

use enet::record::Record;

use super::sound::settle;
use crate::model::{CELL, PIECES, SECOND};

/// Makes the packet in this slot the record's block, of so many bytes and so many pieces, of which those are marked whose bit
/// is set.
pub fn put(record: &mut Record, slot: usize, length: u32, pieces: u32, marked: u64) {
    let marks = marked & u64::MAX >> (PIECES - pieces);
    record.marks = [marks as u32, (marks >> 32) as u32];
    let block = &mut record.incoming_slots[slot];
    (block.fragments, block.remaining) = (pieces, pieces - marks.count_ones());
    block.length = length;
}

/// The same, with every piece marked.
pub fn put_whole(record: &mut Record, slot: usize, length: u32, pieces: u32) {
    put(record, slot, length, pieces, u64::MAX);
}

/// Makes plain packets of all that the record holds.
pub fn strip(record: &mut Record) {
    record.marks = [0, 0];
    for slot in record.blocks() {
        let packet = &mut record.incoming_slots[slot];
        packet.fragments = 0;
        packet.length = packet.length.min(CELL as u32);
    }
    settle(record);
}

/// Makes at most one block of the packets that were drawn with any fragments, and plain packets of the others. Which one, its
/// pieces and its length come from the numbers as drawn: stored scripts rely on the draws as they were before C-11.
pub fn choose(record: &mut Record) {
    record.marks = [0, 0];
    let drawn = record.blocks();
    let sum = drawn.iter().fold(0, |sum: u32, slot| {
        sum.wrapping_add(record.incoming_slots[*slot].fragments).wrapping_mul(31)
    });
    // One of them, or in half of the records none.
    let chosen = sum as usize / 7 % (2 * drawn.len()).max(1);
    for (place, slot) in drawn.into_iter().enumerate() {
        let packet = &mut record.incoming_slots[slot];
        let (pieces, marked) = (packet.fragments % PIECES + 1, any_marks(packet.remaining));
        packet.fragments = 0;
        if place == chosen {
            let length = (packet.length * 8).clamp(1, SECOND as u32);
            put(record, slot, length, pieces, marked);
        }
    }
}

/// All marks, none, or any.
fn any_marks(drawn: u32) -> u64 {
    match drawn {
        0 => u64::MAX,
        u32::MAX => 0,
        drawn => u64::from(drawn).wrapping_mul(0x9E37_79B9_7F4A_7C15),
    }
}
