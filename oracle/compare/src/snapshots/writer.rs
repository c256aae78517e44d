//! The writer: the edition, the record's row, then the stored bytes.

use enet::record::{Incoming, Record};

use super::groups::groups;
use crate::model::{CELL, SECOND};

/// The edition that there is.
pub const EDITION: u32 = 1;

/// The snapshot of any record; of a damaged one it is what a reader meets, and no call writes it.
pub fn write(record: &Record, store: &[u8], second: &[u8]) -> Vec<u8> {
    let numbers = [EDITION].into_iter().chain(record.row());
    let mut bytes: Vec<u8> = numbers.flat_map(|number| groups(number.into())).collect();
    for slot in record.used_incoming() {
        let packet = &record.incoming_slots[slot];
        let from = if packet.is_block() { second } else { &store[slot * CELL..] };
        bytes.extend(&from[..stored(packet)]);
    }
    bytes
}

/// How many bytes of it are written: its length, or its limit where that is above.
pub fn stored(packet: &Incoming) -> usize {
    let limit = if packet.is_block() { SECOND } else { CELL };
    limit.min(packet.length as usize)
}
