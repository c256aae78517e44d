//! Whether a record is damaged: document 01's list, in its order, and C-11's.

use std::collections::BTreeSet;

use enet::record::{place, Incoming, List, Record, CHANNELS};

use crate::model::{mtu_fits, CELL, PIECES, SECOND};

/// The channel that is the peer itself.
pub const PEER: u8 = 255;

pub fn damaged(record: &Record) -> bool {
    let numbers_fit = mtu_fits(record.numbers[place::MTU])
        && record.numbers[place::CHANNEL_COUNT] as usize <= CHANNELS;
    !(numbers_fit
        && lists_sound(&record.outgoing_lists())
        && lists_sound(&record.incoming_lists())
        && outgoing_sound(record)
        && incoming_sound(record)
        && blocks_sound(record)
        && record.numbers[place::WAITING] == held(record))
}

/// The lengths of the packets held, together.
pub fn held(record: &Record) -> u32 {
    record.used_incoming().iter().map(|&slot| record.incoming_slots[slot].length).sum()
}

/// No list longer than its pool, no slot that does not exist, and none twice.
fn lists_sound(lists: &[&List]) -> bool {
    let mut seen = BTreeSet::new();
    lists.iter().all(|list| {
        usize::from(list.length) <= list.cells.len()
            && list
                .items()
                .iter()
                .all(|&slot| usize::from(slot) < list.cells.len() && seen.insert(slot))
    })
}

fn outgoing_sound(record: &Record) -> bool {
    let count = record.numbers[place::CHANNEL_COUNT];
    let commands_fit = record.used_outgoing().iter().all(|&slot| {
        let command = &record.outgoing_slots[slot];
        command.byte & 15 == command.kind
            && (u32::from(command.channel) < count || command.channel == PEER)
    });
    commands_fit && record.sent.slots().all(|slot| record.outgoing_slots[slot].attempts > 0)
}

fn incoming_sound(record: &Record) -> bool {
    let count = record.numbers[place::CHANNEL_COUNT];
    let packets_fit = record.used_incoming().iter().all(|&slot| {
        let packet = &record.incoming_slots[slot];
        length_fits(packet) && u32::from(packet.channel) < count
    });
    packets_fit
        && record.open_channels().iter().enumerate().all(|(number, channel)| {
            let own = |slot: usize| usize::from(record.incoming_slots[slot].channel) == number;
            channel.list.slots().all(own)
        })
}

/// A packet fits a cell; a block has at least a byte and fits the second store.
fn length_fits(packet: &Incoming) -> bool {
    let length = packet.length as usize;
    if packet.is_block() {
        (1..=SECOND).contains(&length)
    } else {
        length <= CELL
    }
}

/// At most one block, of at most 64 pieces, whose marks are those of the pieces that do not remain; without one no mark.
fn blocks_sound(record: &Record) -> bool {
    let [slot] = record.blocks()[..] else {
        return record.blocks().is_empty() && record.marks == [0, 0];
    };
    let block = &record.incoming_slots[slot];
    let marks = u64::from(record.marks[1]) << 32 | u64::from(record.marks[0]);
    let past = |piece: u32| piece < PIECES && marks >> piece != 0;
    block.fragments <= PIECES
        && !past(block.fragments)
        && u64::from(block.remaining) + u64::from(marks.count_ones()) == block.fragments.into()
}
