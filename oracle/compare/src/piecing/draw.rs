//! Random records that hold a block, mostly an unfinished one, and pieces that suit them.

use enet::record::Record;

use crate::{
    model::{Settings, PIECES, SECOND},
    ops::{
        arrival::Came,
        fragment::{Part, KIND},
        reliable::LAST,
    },
    queueing::{draw, TAKEN, WINDOW},
    random::Random,
    records::{block, sound},
};

/// A sound record whose channels hold packets, and in two of three cases a block among them.
pub fn holding(random: &mut Random) -> Record {
    let mut record = draw::holding(random);
    block::strip(&mut record);
    let slots: Vec<usize> = record.used_incoming().into_iter().collect();
    // Packets that came as a piece too.
    for slot in &slots {
        if random.once_in(8) {
            record.incoming_slots[*slot].byte = 136;
        }
    }
    if !slots.is_empty() && !random.once_in(3) {
        let slot = random.pick(&slots);
        let (pieces, length) = sizes(random);
        let marked = match random.below(6) {
            0 => u64::MAX,
            1 => !(1 << random.below(pieces.into())),
            _ => random.next() & random.next(),
        };
        if !random.once_in(12) {
            record.incoming_slots[slot].byte = 136;
        }
        block::put(&mut record, slot, length.max(1), pieces, marked);
    }
    sound::settle(&mut record);
    record
}

/// Pieces and bytes, mostly few of both.
fn sizes(random: &mut Random) -> (u32, u32) {
    let pieces = match random.below(6) {
        0 => 1 + random.up_to(PIECES - 1),
        _ => 1 + random.below(4) as u32,
    };
    let length = match random.below(6) {
        0 => random.up_to(SECOND as u32),
        1 => pieces - random.below(2) as u32,
        _ => pieces + random.below(20) as u32,
    };
    (pieces, length)
}

/// Settings and a piece that suit the record.
pub fn piece<'a>(random: &mut Random, record: &Record, datagram: &'a [u8]) -> (Settings, Part<'a>) {
    let (settings, came) = draw::arrival(random, record, datagram);
    let mut came = Came { byte: KIND | came.byte & 0xF0, ..came };
    let held = record.blocks().first().map(|slot| &record.incoming_slots[*slot]);
    let (mut count, mut total) = sizes(random);
    if let Some(block) = held.filter(|_| !random.once_in(3)) {
        (count, total) = (block.fragments, block.length);
        (came.channel, came.number) = (block.channel, block.number);
    }
    let last = record.channels[usize::from(came.channel)].numbers[LAST];
    came.number = match random.below(32) {
        0 => last,
        1 => last.wrapping_add(TAKEN * WINDOW - last % WINDOW),
        _ => came.number,
    };
    let mut piece = random.below(count.max(1).into()) as u32;
    came.length = match random.below(24) {
        0 => random.pick(&[4_095, 4_096, 4_097, 4_900]),
        1..=3 => 0,
        _ => 1 + random.below(4) as u32,
    };
    let mut offset = random.below(u64::from(total.saturating_sub(came.length)) + 1) as u32;
    let near = |random: &mut Random, number: u32| {
        number.wrapping_add(random.below(3) as u32).wrapping_sub(1)
    };
    match random.below(24) {
        0 => count = near(random, count),
        1 => total = near(random, total),
        2 => piece = near(random, count),
        3 => offset = near(random, total),
        4 => offset = near(random, total.saturating_sub(came.length)),
        5 => count = random.pick(&[0, 64, 65, 66, 1_048_576, 1_048_577]),
        6 => total = random.pick(&[0, 1, 32_768, 32_769, 40_000, 1 << 21]),
        7 => (count, total) = (65 + random.below(9) as u32, 1_000),
        _ => {}
    }
    let packet = if random.once_in(24) { near(random, total).max(1) } else { settings.packet };
    let number = random.next() as u16;
    (Settings { packet, ..settings }, Part { came, number, count, piece, total, offset })
}
