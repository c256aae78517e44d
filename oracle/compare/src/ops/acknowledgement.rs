//! Op 8: an acknowledgement. 11 and 13 are document 01's; all else is what the source's own handler does.

use enet::{record::Record, Acknowledged, Acknowledgement};

use super::Group;
use crate::{frame::Frame, model::Model, random::Random};

/// As much as a time may lie behind.
pub const DAY: u32 = 86_400_000;

pub const GROUP: Group = Group { name: "8", weight: 2, frame, line };

fn frame(random: &mut Random, _: u64) -> Frame {
    drawn(random, &Record::fresh(1_392))
}

/// An acknowledgement that suits the record, some time after the command was sent.
pub fn drawn(random: &mut Random, record: &Record) -> Frame {
    let (channel, number, sent) = command(random, record);
    let clock = sent.wrapping_add(delay(random));
    unfit(random, [channel, number, sent & 0xFFFF, clock])
}

/// One that comes in when the clock stands here; the time in it is now and then any.
pub fn drawn_at(random: &mut Random, record: &Record, clock: u32) -> Frame {
    let (channel, number, sent) = command(random, record);
    let sent = if random.once_in(24) { clock.wrapping_sub(delay(random)) } else { sent };
    unfit(random, [channel, number, sent & 0xFFFF, clock])
}

/// Channel, number and sent time of a command that was sent, mostly; or of one that waits, or any.
fn command(random: &mut Random, record: &Record) -> (u32, u32, u32) {
    let list = match random.below(16) {
        0..=1 => &record.outgoing,
        2..=4 => &record.send_reliable,
        _ => &record.sent,
    };
    let slots: Vec<usize> = list.slots().collect();
    if slots.is_empty() || random.once_in(16) {
        let channel = random.pick(&[0, 0, 1, 7, 8, 254, 255]);
        return (channel, random.up_to(65_535), random.up_to(u32::MAX));
    }
    let command = &record.outgoing_slots[random.pick(&slots)];
    // Now and then just another one.
    let number = if random.once_in(16) { command.reliable ^ 1 } else { command.reliable };
    (command.channel.into(), number.into(), command.sent_time)
}

/// A time until an acknowledgement: mostly short, or around where a time of 16 bits or a day turns.
fn delay(random: &mut Random) -> u32 {
    let near = random.below(5) as u32;
    match random.below(16) {
        0 => random.pick(&[0, 1, 2]),
        1 => 32_766 + near,
        2 => 65_534 + near,
        3 => DAY - 2 + near,
        4 => near.wrapping_sub(2),
        5 => random.number(),
        6..=8 => random.below(40_000) as u32,
        _ => random.below(1_000) as u32,
    }
}

/// The frame, now and then with a number that does not fit.
fn unfit(random: &mut Random, mut numbers: [u32; 4]) -> Frame {
    if random.once_in(64) {
        numbers[random.below(3) as usize] = random.pick(&[256, 65_536, u32::MAX]);
    }
    Frame { op: 8, numbers: numbers.to_vec(), ..Frame::default() }
}

fn line(model: &mut Model, frame: &Frame) -> String {
    let Some(came) = came(frame) else {
        return frame.bad();
    };
    if let Some(number) = model.refusal() {
        return model.reply(frame, number);
    }
    let (answer, after) = model.bench.acknowledge(&model.record, came);
    assert!(answer != Acknowledged::PassedOver || after == model.record, "nothing changed");
    model.record = after;
    model.replies(frame, numbers(answer))
}

/// What came in, if every number fits.
pub fn came(frame: &Frame) -> Option<Acknowledgement> {
    Some(Acknowledgement {
        channel: frame.number(0).try_into().ok()?,
        number: frame.number(1).try_into().ok()?,
        sent_time: frame.number(2).try_into().ok()?,
        clock: frame.number(3),
    })
}

/// Document 01's reply.
fn numbers(answer: Acknowledged) -> &'static [u32] {
    match answer {
        Acknowledged::PassedOver => &[0, 0],
        Acknowledged::Done => &[0, 1],
        Acknowledged::Connect => &[0, 2],
        Acknowledged::Disconnect => &[0, 3],
        Acknowledged::DisconnectNow => &[0, 4],
        Acknowledged::Refused => &[10],
    }
}

#[cfg(test)]
pub mod tests {
    use super::*;
    use crate::{
        ops::{
            step::{add, ACKNOWLEDGE},
            throttle::tests::roll,
        },
        records::sound,
    };
    use enet::{
        record::{place, List},
        Bench,
    };
    use std::collections::BTreeMap;

    /// The distance of two times.
    pub fn distance(a: u32, b: u32) -> u32 {
        let ahead = a.wrapping_sub(b);
        if ahead >= DAY {
            b.wrapping_sub(a)
        } else {
            ahead
        }
    }

    /// Document 01's acknowledgement on a sound record: its reply, and the record after it.
    fn told(record: &mut Record, came: Acknowledgement) -> Vec<u32> {
        let state = record.numbers[place::STATE];
        if [0, 9].contains(&state) {
            return vec![0, 0];
        }
        let mut sent = came.clock & 0xFFFF_0000 | u32::from(came.sent_time);
        if sent & 0x8000 > came.clock & 0x8000 {
            sent = sent.wrapping_sub(0x1_0000);
        }
        let sample = came.clock.wrapping_sub(sent);
        if sample >= DAY {
            return vec![0, 0];
        }
        average(record, sample.max(1));
        roll_interval(record, came.clock);
        record.numbers[place::LAST_RECEIVE] = came.clock.max(1);
        record.numbers[place::EARLIEST_TIMEOUT] = 0;
        let removed = remove(record, came.channel, came.number);
        let empty = record.outgoing_lists().iter().all(|list| list.length == 0);
        match (state, removed) {
            (2, Some(3)) => vec![0, 2],
            (7, Some(4)) => vec![0, 3],
            (2 | 7, _) => vec![10],
            (6, _) if empty => vec![0, 4],
            _ => vec![0, 1],
        }
    }

    /// The round trip and its variance after a sample, the lowest and the highest.
    fn average(record: &mut Record, sample: u32) {
        let [trip, variance] =
            [place::ROUND_TRIP, place::ROUND_TRIP_VARIANCE].map(|place| record.numbers[place]);
        let (trip, variance) = if record.numbers[place::LAST_RECEIVE] == 0 {
            (sample, sample.wrapping_add(1) / 2)
        } else {
            roll(record, sample);
            let (apart, up) = (sample.abs_diff(trip), sample >= trip);
            let eighth = if up { apart / 8 } else { (apart / 8).wrapping_neg() };
            (trip.wrapping_add(eighth), (variance - variance / 4).wrapping_add(apart / 4))
        };
        let numbers = &mut record.numbers;
        numbers[place::ROUND_TRIP] = trip;
        numbers[place::ROUND_TRIP_VARIANCE] = variance;
        numbers[place::LOWEST_ROUND_TRIP] = numbers[place::LOWEST_ROUND_TRIP].min(trip);
        numbers[place::HIGHEST_VARIANCE] = numbers[place::HIGHEST_VARIANCE].max(variance);
    }

    /// Begins another interval of the throttle where one is over.
    fn roll_interval(record: &mut Record, clock: u32) {
        let numbers = &mut record.numbers;
        let epoch = numbers[place::THROTTLE_EPOCH];
        if epoch == 0 || distance(clock, epoch) >= numbers[place::THROTTLE_INTERVAL] {
            numbers[place::LAST_ROUND_TRIP] = numbers[place::LOWEST_ROUND_TRIP];
            numbers[place::LAST_VARIANCE] = numbers[place::HIGHEST_VARIANCE].max(1);
            numbers[place::LOWEST_ROUND_TRIP] = numbers[place::ROUND_TRIP];
            numbers[place::HIGHEST_VARIANCE] = numbers[place::ROUND_TRIP_VARIANCE];
            numbers[place::THROTTLE_EPOCH] = clock;
        }
    }

    /// The command that was removed, if there was one.
    fn remove(record: &mut Record, channel: u8, number: u16) -> Option<u8> {
        let slots = record.outgoing_slots.clone();
        let named =
            |slot: &usize| slots[*slot].reliable == number && slots[*slot].channel == channel;
        let asks = |slot: &usize| slots[*slot].byte & ACKNOWLEDGE != 0;
        let unsent = |slot: &usize| asks(slot) && slots[*slot].attempts == 0;
        let sent = record.sent.slots().find(named);
        let search = |list: &List| {
            list.slots().take_while(|slot| !unsent(slot)).find(|slot| asks(slot) && named(slot))
        };
        let slot = sent.or(search(&record.outgoing)).or(search(&record.send_reliable))?;
        let gone = &slots[slot];
        for list in [&mut record.sent, &mut record.outgoing, &mut record.send_reliable] {
            list.leave(slot);
        }
        if sent.is_some() && gone.packet {
            add(record, place::IN_TRANSIT, u32::from(gone.length).wrapping_neg());
        }
        if let Some(head) = record.sent.slots().next() {
            record.numbers[place::NEXT_TIMEOUT] =
                slots[head].sent_time.wrapping_add(slots[head].timeout);
        }
        Some(gone.kind)
    }

    /// A sound record in which numbers turn where the rule looks at them.
    fn record(random: &mut Random) -> Record {
        let mut record = match random.below(3) {
            0 => sound::light(random, &Record::fresh(1_392)),
            _ => sound::any(random),
        };
        if random.once_in(2) {
            record.numbers[place::STATE] = random.pick(&[2, 6, 7]);
        }
        for place in [place::LAST_RECEIVE, place::THROTTLE_EPOCH] {
            if random.once_in(4) {
                record.numbers[place] = 0;
            }
        }
        for slot in record.used_outgoing() {
            let command = &mut record.outgoing_slots[slot];
            if random.once_in(2) {
                command.byte |= ACKNOWLEDGE;
            }
            if !random.once_in(8) {
                command.attempts = command.attempts.max(1);
            }
        }
        if random.once_in(2) {
            let place = random.pick(&[place::ROUND_TRIP, place::LAST_ROUND_TRIP]);
            record.numbers[place] = random.below(2_000) as u32;
        }
        record
    }

    #[test]
    fn the_source_acknowledges_as_document_01_says() {
        let (mut random, mut bench) = (Random::new(1), Bench::new());
        let mut met = BTreeMap::new();
        for _ in 0..20_000 {
            let record = record(&mut random);
            let asked = drawn(&mut random, &record);
            let Some(came) = came(&asked) else {
                continue;
            };
            let mut after = record.clone();
            let told = told(&mut after, came);
            let (answer, got) = bench.acknowledge(&record, came);
            assert_eq!((numbers(answer), got.row()), (&told[..], after.row()), "{came:?}");
            *met.entry(told).or_insert(0) += 1;
        }
        assert!(met.len() == 6 && met.values().all(|count| *count >= 50), "{met:?}");
    }
}
