//! The set `snapshot-byte`: every command byte, of outgoing slots and of incoming ones.

use std::io;

use enet::record::{Outgoing, Record};

use super::{
    draw,
    groups::groups,
    laying::{carry, open, write_all},
    reader::{spans, What},
    widths::in_place,
};
use crate::{
    arriving::connected,
    output::Output,
    random::Random,
    records::{block, frame, sound},
};

/// The seed of all that the set leaves open.
const SEED: u64 = 1;

/// All of the set: every byte before the fields of every kind, and on packets and a block.
pub fn write_set(output: &mut Output) -> io::Result<()> {
    let random = &mut Random::new(SEED);
    open(output)?;
    for kind in 1..=12 {
        write_kind(output, random, kind, 0..=255)?;
    }
    write_incoming(output, random, 0..=255)
}

/// A thin slice of it.
pub fn write_slice(output: &mut Output) -> io::Result<()> {
    let random = &mut Random::new(SEED);
    open(output)?;
    write_kind(output, random, 5, 0..=15)?;
    write_kind(output, random, 9, 69..=80)?;
    write_incoming(output, random, 254..=255)
}

/// A sent command of this kind with every byte, and the record that it makes.
fn write_kind(
    output: &mut Output,
    random: &mut Random,
    kind: u8,
    all: impl Iterator<Item = u16>,
) -> io::Result<()> {
    let mut record = connected(1);
    record.sent.push(7);
    record.outgoing_slots[7] = Outgoing { attempts: 1, channel: 255, ..Outgoing::default() };
    draw::name_command(random, &mut record, 7, kind);
    let bytes = draw::snapshot(random, &record);
    let spans = spans(&bytes);
    let span = spans.iter().find(|span| span.what == What::Command).expect("one is used");
    for byte in all {
        let line = carry(output, &in_place(&bytes, span, &groups(byte.into())))?;
        if line.starts_with("34 0 ") {
            output.put(&write_all())?;
        }
    }
    output.put(&frame(15, vec![]))
}

/// A packet and a block with every byte.
fn write_incoming(
    output: &mut Output,
    random: &mut Random,
    all: impl Iterator<Item = u16> + Clone,
) -> io::Result<()> {
    let record = packet_and_block(random);
    let bytes = draw::snapshot(random, &record);
    for span in spans(&bytes).iter().filter(|span| span.what == What::Byte) {
        for byte in all.clone() {
            carry(output, &in_place(&bytes, span, &groups(byte.into())))?;
        }
    }
    output.put(&write_all())
}

fn packet_and_block(random: &mut Random) -> Record {
    let mut record = connected(2);
    record.dispatched.push(11);
    record.channels[1].list.push(3);
    record.incoming_slots[11].length = 3;
    record.incoming_slots[3].channel = 1;
    block::put(&mut record, 3, 5, 2, 1 + random.below(2));
    sound::settle(&mut record);
    record
}

#[cfg(test)]
mod tests {
    use super::*;
    use crate::met::{assert_met, replies};

    #[test]
    fn the_set_meets_its_replies() {
        let met = replies(write_set);
        assert_met(&met, 192 + 512, &["34 0", "34 15"]);
    }
}
