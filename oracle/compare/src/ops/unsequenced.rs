//! Op 10: an unsequenced arrival. The source's own handler answers it; its one refusal is split into document
//! 01's 6, 7 and 8, and 9, a length above 4,096 and a full pool are document 01's alone.

use enet::{
    record::{place, Record},
    Room, Verdict,
};

use super::{
    arrival::{byte, channel, with_payload, Came},
    Group,
};
use crate::{
    frame::Frame,
    model::{Model, CELL},
    random::Random,
};

/// The command of an unsequenced packet.
pub const KIND: u8 = 9;

/// The groups of a window, and of the windows ahead that are not passed over.
pub const WINDOW: u16 = 1_024;
const AHEAD: u16 = 32_768;

pub const GROUP: Group = Group { name: "10", weight: 2, frame, line };

fn frame(random: &mut Random, _: u64) -> Frame {
    drawn(random, &Record::fresh(1_392))
}

/// An arrival that suits the record.
pub fn drawn(random: &mut Random, record: &Record) -> Frame {
    let group = group(random, record.numbers[place::INCOMING_GROUP] as u16);
    let mut numbers = vec![byte(random, KIND), channel(random, record), random.up_to(65_535)];
    numbers.push(if random.once_in(64) { 65_536 } else { group.into() });
    with_payload(random, Frame { op: 10, numbers, ..Frame::default() })
}

/// A group near the base, at the edge of a window, around the last that is not passed over, or any.
fn group(random: &mut Random, base: u16) -> u16 {
    let near = random.below(5) as u16;
    match random.below(16) {
        0..=5 => base.wrapping_add(near),
        6..=7 => base.wrapping_add(random.below(u64::from(WINDOW)) as u16),
        8..=9 => base.wrapping_add(WINDOW).wrapping_add(near).wrapping_sub(2),
        10..=11 => {
            let windows = WINDOW * random.below(64) as u16;
            base.wrapping_add(windows).wrapping_add(near).wrapping_sub(2)
        }
        12 => base.wrapping_sub(near),
        13 => base.wrapping_add(AHEAD).wrapping_add(near).wrapping_sub(2),
        _ => random.up_to(65_535) as u16,
    }
}

fn line(model: &mut Model, frame: &Frame) -> String {
    let Some(came) = came(frame) else {
        return frame.bad();
    };
    match came.refusal(model, KIND) {
        Some(number) => model.reply(frame, number),
        None => {
            let (numbers, after) = arrive(model, &came);
            model.record = after;
            model.replies(frame, &numbers)
        }
    }
}

/// What came in, if every number fits.
fn came(frame: &Frame) -> Option<Came<'_>> {
    Some(Came {
        byte: frame.number(0).try_into().ok()?,
        channel: frame.number(1).try_into().ok()?,
        number: frame.number(2).try_into().ok()?,
        group: frame.number(3).try_into().ok()?,
        length: frame.number(4),
        place: frame.number(5),
        datagram: &frame.bytes,
    })
}

/// The reply to an arrival on a sound record, and the record after it; a cell gets what is delivered.
fn arrive(model: &mut Model, came: &Came) -> (Vec<u32>, Record) {
    let judged = came.judged(&model.record, &model.settings);
    let arrival = came.arrival().filter(|arrival| usize::from(arrival.length) <= CELL);
    // The source has no such arrival, or would go on, for want of cells that have an end.
    let Some(arrival) = arrival else {
        return (vec![judged.expect("too long or past the end")], model.record.clone());
    };
    let free = model.record.free_incoming();
    // The source has no slots that can be full, so there it is left no room.
    let waiting = if free.is_some() { model.settings.waiting } else { 0 };
    let room = Room { packet: model.settings.packet, waiting };
    let (arrived, after) = model.bench.arrive(&model.record, room, &arrival);
    let numbers = match arrived.verdict {
        Verdict::PassedOver => vec![0, 0],
        Verdict::Delivered => {
            model.keep(free.expect("there was room"), &arrived.bytes);
            vec![0, 1]
        }
        Verdict::Refused => vec![judged.unwrap_or(8)],
    };
    let refused = arrived.verdict == Verdict::Refused;
    assert!(judged.is_none() || (refused && after == model.record), "6 and 7 are the source's too");
    let full = model.record.numbers[place::WAITING] >= waiting;
    assert!(judged.is_some() || !refused || full, "8 only without room");
    (numbers, after)
}

#[cfg(test)]
mod tests {
    use super::*;
    use crate::{model::DISCONNECT_LATER, ops::step::add, records::sound};
    use enet::{
        record::{Incoming, WORDS},
        Arrival, Bench,
    };
    use std::collections::BTreeMap;

    /// Document 01's arrival on a sound record: its reply, and the record and its new slot after it.
    fn told(record: &mut Record, model: &Model, came: &Came) -> (Vec<u32>, Option<usize>) {
        if let Some(number) = came.judged(record, &model.settings) {
            return (vec![number], None);
        }
        let (base, group) = (record.numbers[place::INCOMING_GROUP], u32::from(came.group));
        let ahead = if group < base { group + 65_536 } else { group };
        if ahead >= base + 32_768 {
            return (vec![0, 0], None);
        }
        let (word, bit) = (came.group as usize % 1_024 / 32, 1 << (group % 32));
        if group - group % 1_024 != base {
            record.numbers[place::INCOMING_GROUP] = group - group % 1_024;
            record.words = [0; WORDS];
        } else if record.words[word] & bit != 0 {
            return (vec![0, 0], None);
        }
        if record.numbers[place::STATE] == DISCONNECT_LATER {
            record.words[word] |= bit;
            return (vec![0, 0], None);
        }
        let room = record.numbers[place::WAITING] < model.settings.waiting;
        let Some(slot) = record.free_incoming().filter(|_| room) else {
            return (vec![8], None);
        };
        record.words[word] |= bit;
        let &Came { byte, channel, number, length, .. } = came;
        record.incoming_slots[slot] =
            Incoming { byte, channel, number, fragments: 0, remaining: 0, length };
        record.dispatched.push(slot);
        record.numbers[place::FLAGS] |= 1;
        add(record, place::WAITING, length);
        (vec![0, 1], Some(slot))
    }

    /// A sound record in state 5 or 6 mostly, with a base at a window's edge or not.
    fn record(random: &mut Random) -> Record {
        let mut record = sound::any(random);
        if !random.once_in(8) {
            record.numbers[place::STATE] = random.pick(&[5, 5, 5, 6]);
        }
        if random.once_in(2) {
            record.numbers[place::INCOMING_GROUP] = 1_024 * random.below(64) as u32;
        }
        record
    }

    #[test]
    fn the_source_takes_arrivals_as_document_01_says() {
        let (mut random, mut model) = (Random::new(1), Model::new());
        let mut met = BTreeMap::new();
        for _ in 0..20_000 {
            model.record = record(&mut random);
            let total = model.record.numbers[place::WAITING];
            model.settings.waiting = random.pick(&[total, total + 1, u32::MAX, u32::MAX]);
            let asked = drawn(&mut random, &model.record);
            let Some(came) = came(&asked).filter(|came| came.byte & 15 == KIND) else {
                continue;
            };
            let (mut after, mut store) = (model.record.clone(), model.store.clone());
            let (numbers, slot) = told(&mut after, &model, &came);
            if let Some(slot) = slot {
                store[slot * CELL..][..came.payload().len()].copy_from_slice(came.payload());
            }
            assert_eq!(arrive(&mut model, &came), (numbers.clone(), after));
            assert!(model.store == store);
            *met.entry(numbers).or_insert(0) += 1;
        }
        assert!(met.len() == 5 && met.values().all(|count| *count >= 100), "{met:?}");
    }

    /// The source's verdict on an arrival of so many bytes, where so many packets are held.
    fn judged(length: u16, held: usize) -> Verdict {
        let mut record = Record::fresh(1_392);
        record.numbers[place::STATE] = 5;
        record.numbers[place::CHANNEL_COUNT] = 1;
        for slot in 0..held {
            record.incoming_slots[slot] = Incoming { byte: 73, ..Incoming::default() };
            record.dispatched.push(slot);
        }
        let rest = vec![7; length.into()];
        let arrival = Arrival { byte: 73, channel: 0, number: 0, group: 0, length, rest: &rest };
        let room = Room { packet: 1 << 25, waiting: 1 << 25 };
        Bench::new().judge(&record, room, &arrival).verdict
    }

    #[test]
    fn the_source_has_no_cells_and_no_slots() {
        assert_eq!((judged(4_096, 11), judged(4_097, 0)), (Verdict::Delivered, Verdict::Delivered));
        assert_eq!(judged(1, 12), Verdict::Delivered);
    }
}
