//! Records with one thing wrong: each kind of damage of document 01 and of C-11, in each list where it can be.

use enet::record::{place, List, Record};

use super::{
    block,
    sound::{packets, rich, settle, shaped, Shape},
};
use crate::random::Random;

/// A kind of damage by its name, and how such a record is made.
pub type Harm = (&'static str, fn(&mut Random) -> Record);

/// Which list of a record is meant.
type Which = fn(&mut Record) -> &mut List;

const SENT: Which = |record| &mut record.sent;
const SEND_RELIABLE: Which = |record| &mut record.send_reliable;
const OUTGOING: Which = |record| &mut record.outgoing;
const DISPATCHED: Which = |record| &mut record.dispatched;
const FIRST: Which = |record| &mut record.channels[0].list;
const LAST: Which = |record| {
    let count = record.open_channels().len();
    &mut record.channels[count - 1].list
};

pub const HARMS: &[Harm] = &[
    ("MTU 0", |random| number(random, place::MTU, 0)),
    ("MTU 575", |random| number(random, place::MTU, 575)),
    ("MTU 4097", |random| number(random, place::MTU, 4_097)),
    ("MTU 2^32 - 1", |random| number(random, place::MTU, u32::MAX)),
    ("count 9", |random| number(random, place::CHANNEL_COUNT, 9)),
    ("count 256", |random| number(random, place::CHANNEL_COUNT, 256)),
    ("count 2^32 - 1", |random| number(random, place::CHANNEL_COUNT, u32::MAX)),
    ("sent of 33", |random| long(random, full(32, 0, 0), SENT, 33)),
    ("sent of 65535", |random| long(random, full(32, 0, 0), SENT, 65_535)),
    ("send-reliable of 33", |random| long(random, full(0, 32, 0), SEND_RELIABLE, 33)),
    ("send-reliable of 65535", |random| long(random, full(0, 32, 0), SEND_RELIABLE, 65_535)),
    ("outgoing of 33", |random| long(random, full(0, 0, 32), OUTGOING, 33)),
    ("outgoing of 65535", |random| long(random, full(0, 0, 32), OUTGOING, 65_535)),
    ("dispatched of 13", |random| long(random, come(12, 0, 0), DISPATCHED, 13)),
    ("dispatched of 65535", |random| long(random, come(12, 0, 0), DISPATCHED, 65_535)),
    ("a channel of 13", |random| long(random, come(0, 12, 0), FIRST, 13)),
    ("the last channel of 65535", |random| long(random, come(0, 0, 12), LAST, 65_535)),
    ("slot 32 in sent", |random| absent(random, SENT, 32)),
    ("slot 65535 in sent", |random| absent(random, SENT, 65_535)),
    ("slot 32 in send-reliable", |random| absent(random, SEND_RELIABLE, 32)),
    ("slot 256 in send-reliable", |random| absent(random, SEND_RELIABLE, 256)),
    ("slot 32 in outgoing", |random| absent(random, OUTGOING, 32)),
    ("slot 65535 in outgoing", |random| absent(random, OUTGOING, 65_535)),
    ("slot 12 in dispatched", |random| absent(random, DISPATCHED, 12)),
    ("slot 65535 in dispatched", |random| absent(random, DISPATCHED, 65_535)),
    ("slot 12 in a channel", |random| absent(random, FIRST, 12)),
    ("slot 31 in the last channel", |random| absent(random, LAST, 31)),
    ("twice in sent", |random| twice(random, SENT, SENT)),
    ("twice in send-reliable", |random| twice(random, SEND_RELIABLE, SEND_RELIABLE)),
    ("twice in outgoing", |random| twice(random, OUTGOING, OUTGOING)),
    ("in sent and send-reliable", |random| twice(random, SENT, SEND_RELIABLE)),
    ("in sent and outgoing", |random| twice(random, SENT, OUTGOING)),
    ("in send-reliable and outgoing", |random| twice(random, SEND_RELIABLE, OUTGOING)),
    ("twice in dispatched", |random| twice(random, DISPATCHED, DISPATCHED)),
    ("twice in a channel", |random| twice(random, FIRST, FIRST)),
    ("in a channel and dispatched", |random| twice(random, FIRST, DISPATCHED)),
    ("in the last channel and dispatched", |random| twice(random, LAST, DISPATCHED)),
    ("in two channels", |random| twice(random, FIRST, LAST)),
    ("4097 bytes in dispatched", |random| bytes(random, DISPATCHED, 4_097)),
    ("65535 bytes in dispatched", |random| bytes(random, DISPATCHED, 65_535)),
    ("4097 bytes in a channel", |random| bytes(random, FIRST, 4_097)),
    ("65535 bytes in the last channel", |random| bytes(random, LAST, 65_535)),
    ("another command in sent", |random| command(random, SENT, |kind| kind % 12 + 1)),
    ("command 0 in sent", |random| command(random, SENT, |_| 0)),
    ("another command in send-reliable", |random| command(random, SEND_RELIABLE, |kind| kind ^ 1)),
    ("command 13 in send-reliable", |random| command(random, SEND_RELIABLE, |_| 13)),
    ("another command in outgoing", |random| command(random, OUTGOING, |kind| kind ^ 8)),
    ("command 15 in outgoing", |random| command(random, OUTGOING, |_| 15)),
    ("the count as a channel in sent", |random| outgoing_channel(random, SENT, 0)),
    ("channel 254 in sent", |random| outgoing_channel(random, SENT, 254)),
    ("the count as a channel in send-reliable", |random| {
        outgoing_channel(random, SEND_RELIABLE, 0)
    }),
    ("channel 8 in send-reliable", |random| outgoing_channel(random, SEND_RELIABLE, 8)),
    ("the count as a channel in outgoing", |random| outgoing_channel(random, OUTGOING, 0)),
    ("channel 254 in outgoing", |random| outgoing_channel(random, OUTGOING, 254)),
    ("the count as a channel in dispatched", |random| incoming_channel(random, DISPATCHED, 0)),
    ("channel 255 in dispatched", |random| incoming_channel(random, DISPATCHED, 255)),
    ("the last channel's in the first", |random| {
        let mut record = rich(random);
        let slot = usize::from(record.channels[0].list.cells[0]);
        record.incoming_slots[slot].channel = record.numbers[place::CHANNEL_COUNT] as u8 - 1;
        record
    }),
    ("the first channel's in the last", |random| {
        let mut record = rich(random);
        let slot = last(&mut record, LAST);
        record.incoming_slots[slot].channel = 0;
        record
    }),
    ("the count as a channel in a channel", |random| incoming_channel(random, FIRST, 0)),
    ("channel 255 in the last channel", |random| incoming_channel(random, LAST, 255)),
    ("the first sent without attempts", |random| {
        let mut record = rich(random);
        let slot = usize::from(record.sent.cells[0]);
        record.outgoing_slots[slot].attempts = 0;
        record
    }),
    ("the last sent without attempts", |random| {
        let mut record = rich(random);
        let slot = last(&mut record, SENT);
        record.outgoing_slots[slot].attempts = 0;
        record
    }),
    ("waiting one more", |random| waiting(random, |held| held + 1)),
    ("waiting one less", |random| waiting(random, |held| held.wrapping_sub(1))),
    ("waiting 2^31 more", |random| waiting(random, |held| held + (1 << 31))),
    ("waiting for nothing held", |random| {
        let mut record = shaped(random, &Shape { sent: 2, ..Shape::default() });
        record.numbers[place::WAITING] = 1;
        record
    }),
    ("waiting without the channels", |random| {
        let mut record = rich(random);
        let slot = last(&mut record, LAST);
        record.incoming_slots[slot].length = 4_096;
        let dispatched = record.dispatched.slots();
        record.numbers[place::WAITING] =
            dispatched.map(|slot| record.incoming_slots[slot].length).sum();
        record
    }),
    ("a second block in dispatched", |random| {
        blocked(random, FIRST, |record, _| another(record, DISPATCHED))
    }),
    ("a second block in another channel", |random| {
        blocked(random, FIRST, |record, _| another(record, LAST))
    }),
    ("a second block in the same channel", |random| {
        blocked(random, LAST, |record, _| another(record, LAST))
    }),
    ("a block of 65 pieces", |random| {
        blocked(random, FIRST, |record, slot| {
            block::put_whole(record, slot, 900, 64);
            let held = &mut record.incoming_slots[slot];
            (held.fragments, held.remaining) = (65, 1);
        })
    }),
    ("a block of 2^32 - 1 pieces in dispatched", |random| {
        blocked(random, DISPATCHED, |record, slot| {
            record.marks = [0, 0];
            let held = &mut record.incoming_slots[slot];
            (held.fragments, held.remaining) = (u32::MAX, u32::MAX);
        })
    }),
    ("a block of no bytes", |random| block_bytes(random, FIRST, 0)),
    ("a block of no bytes in dispatched", |random| block_bytes(random, DISPATCHED, 0)),
    ("a block of 32769 bytes", |random| block_bytes(random, LAST, 32_769)),
    ("a block of 65535 bytes in dispatched", |random| block_bytes(random, DISPATCHED, 65_535)),
    ("4097 bytes in a packet beside a block", |random| {
        blocked(random, FIRST, |record, _| {
            let slot = usize::from(record.dispatched.cells[0]);
            record.incoming_slots[slot].length = 4_097;
            settle(record);
        })
    }),
    ("a piece more remaining", |random| {
        blocked(random, FIRST, |record, slot| record.incoming_slots[slot].remaining += 1)
    }),
    ("a piece fewer remaining", |random| {
        blocked(random, LAST, |record, slot| record.incoming_slots[slot].remaining -= 1)
    }),
    ("nothing remaining of a block without marks", |random| {
        blocked(random, DISPATCHED, |record, slot| {
            record.marks = [0, 0];
            record.incoming_slots[slot].remaining = 0;
        })
    }),
    ("2^32 - 1 pieces remaining of a whole block and one", |random| {
        blocked(random, FIRST, |record, slot| {
            block::put_whole(record, slot, 900, 40);
            record.incoming_slots[slot].remaining = u32::MAX;
        })
    }),
    ("a mark at the count", |random| past(random, 5, 1 << 5)),
    ("a mark in the second word at the count", |random| past(random, 32, 1 << 32)),
    ("a mark past the count", |random| past(random, 34, 1 << 63)),
    ("the last mark of all past the count", |random| past(random, 63, 1 << 63)),
    ("a mark without a block", |random| stray(random, [1, 0])),
    ("a mark in the second word without a block", |random| stray(random, [0, 1 << 31])),
    ("all marks without a block", |random| stray(random, [u32::MAX; 2])),
];

/// A record of some kind of damage.
pub fn any(random: &mut Random) -> Record {
    let (_, make) = random.pick(HARMS);
    make(random)
}

/// No channel, and these many commands.
fn full(sent: usize, send_reliable: usize, outgoing: usize) -> Shape {
    Shape { sent, send_reliable, outgoing, ..Shape::default() }
}

/// Two channels, and these many packets.
fn come(dispatched: usize, first: usize, last: usize) -> Shape {
    Shape { dispatched, channels: vec![first, last], ..Shape::default() }
}

fn number(random: &mut Random, place: usize, value: u32) -> Record {
    let mut record = rich(random);
    record.numbers[place] = value;
    record
}

/// A full list whose length says still more.
fn long(random: &mut Random, shape: Shape, which: Which, length: u16) -> Record {
    let mut record = shaped(random, &shape);
    which(&mut record).length = length;
    record
}

fn absent(random: &mut Random, which: Which, slot: usize) -> Record {
    let mut record = rich(random);
    which(&mut record).push(slot);
    record
}

/// The first slot of a list once more, at the end of the same or of another.
fn twice(random: &mut Random, from: Which, to: Which) -> Record {
    let mut record = rich(random);
    block::strip(&mut record);
    let slot = usize::from(from(&mut record).cells[0]);
    to(&mut record).push(slot);
    // Without bytes the sum of the lengths is the same, be the slot counted once or twice.
    if let Some(packet) = record.incoming_slots.get_mut(slot) {
        packet.length = 0;
    }
    settle(&mut record);
    record
}

fn bytes(random: &mut Random, which: Which, length: u32) -> Record {
    let mut record = rich(random);
    block::strip(&mut record);
    let slot = last(&mut record, which);
    record.incoming_slots[slot].length = length;
    settle(&mut record);
    record
}

/// Another command than the kind's in the low bits of the last one's byte.
fn command(random: &mut Random, which: Which, other: fn(u8) -> u8) -> Record {
    let mut record = rich(random);
    let slot = last(&mut record, which);
    let command = &mut record.outgoing_slots[slot];
    command.byte = (command.byte & 0xF0) | other(command.kind);
    record
}

/// The last command's channel; 0 stands for the count, the first channel that is not open.
fn outgoing_channel(random: &mut Random, which: Which, channel: u8) -> Record {
    let mut record = rich(random);
    let slot = last(&mut record, which);
    record.outgoing_slots[slot].channel = not_open(&record, channel);
    record
}

/// The last packet's channel, likewise.
fn incoming_channel(random: &mut Random, which: Which, channel: u8) -> Record {
    let mut record = rich(random);
    let slot = last(&mut record, which);
    record.incoming_slots[slot].channel = not_open(&record, channel);
    record
}

fn not_open(record: &Record, channel: u8) -> u8 {
    channel.max(record.numbers[place::CHANNEL_COUNT] as u8)
}

fn waiting(random: &mut Random, change: fn(u32) -> u32) -> Record {
    let mut record = rich(random);
    let waiting = &mut record.numbers[place::WAITING];
    *waiting = change(*waiting);
    record
}

/// An unfinished block of 40 pieces at the end of the list, after this edit.
fn blocked(random: &mut Random, which: Which, edit: impl Fn(&mut Record, usize)) -> Record {
    let mut record = packets(random);
    let slot = last(&mut record, which);
    block::put(&mut record, slot, 900, 40, random.next() & 0x7F_FFFF_FFFE);
    settle(&mut record);
    edit(&mut record, slot);
    record
}

/// Makes the first of the list a block too, of one piece and as many bytes as it had, or one.
fn another(record: &mut Record, which: Which) {
    let slot = usize::from(which(record).cells[0]);
    let packet = &mut record.incoming_slots[slot];
    (packet.fragments, packet.remaining, packet.length) = (1, 1, packet.length.max(1));
    settle(record);
}

fn block_bytes(random: &mut Random, which: Which, length: u32) -> Record {
    blocked(random, which, |record, slot| {
        record.incoming_slots[slot].length = length;
        settle(record);
    })
}

/// A block of so many pieces with this mark and no other, which counts as one that does not remain.
fn past(random: &mut Random, pieces: u32, mark: u64) -> Record {
    blocked(random, LAST, |record, slot| {
        record.marks = [mark as u32, (mark >> 32) as u32];
        let held = &mut record.incoming_slots[slot];
        (held.fragments, held.remaining) = (pieces, pieces - 1);
    })
}

fn stray(random: &mut Random, marks: [u32; 2]) -> Record {
    let mut record = packets(random);
    record.marks = marks;
    record
}

/// The slot at the end of the list.
fn last(record: &mut Record, which: Which) -> usize {
    which(record).slots().last().expect("a rich record has two in each list")
}

#[cfg(test)]
mod tests {
    use super::*;
    use crate::damage::damaged;

    #[test]
    fn every_kind_is_judged_damaged() {
        let mut random = Random::new(1);
        for (name, make) in HARMS {
            for _ in 0..50 {
                assert!(damaged(&make(&mut random)), "{name}");
            }
        }
    }
}
