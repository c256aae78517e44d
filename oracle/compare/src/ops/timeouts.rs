//! Op 9: the timeout check. 11 and 13 are document 01's, and so is the power past 32 attempts; all else is what the
//! source's own check does.

use enet::{
    record::{place, Record},
    Bench,
};

use super::Group;
use crate::{frame::Frame, model::Model, random::Random};

/// The attempts past which the source's shift overflows.
pub const ATTEMPTS: u16 = 32;

pub const GROUP: Group = Group { name: "9", weight: 2, frame, line };

fn frame(random: &mut Random, _: u64) -> Frame {
    drawn(random, &Record::fresh(1_392))
}

/// A check when some sent command comes due, or just not yet; now and then at any time.
pub fn drawn(random: &mut Random, record: &Record) -> Frame {
    let slots: Vec<usize> = record.sent.slots().collect();
    let clock = if slots.is_empty() || random.once_in(8) {
        random.up_to(u32::MAX)
    } else {
        let command = &record.outgoing_slots[random.pick(&slots)];
        let later = random.pick(&[0, 0, 1, 500, 5_000, 30_000, u32::MAX]);
        command.sent_time.wrapping_add(command.timeout).wrapping_add(later)
    };
    at(clock)
}

/// A check when the clock stands here.
pub fn at(clock: u32) -> Frame {
    Frame { op: 9, numbers: vec![clock], ..Frame::default() }
}

fn line(model: &mut Model, frame: &Frame) -> String {
    if let Some(number) = model.refusal() {
        return model.reply(frame, number);
    }
    let (given_up, after) = check(&mut model.bench, &model.record, frame.number(0));
    model.record = after;
    model.replies(frame, if given_up { &[0, 3] } else { &[0, 1] })
}

/// Whether a sound record's peer is given up, and the record after the check.
pub fn check(bench: &mut Bench, record: &Record, clock: u32) -> (bool, Record) {
    let many = |slot: usize| record.outgoing_slots[slot].attempts > ATTEMPTS;
    if !record.sent.slots().any(many) {
        return bench.check_timeouts(record, clock);
    }
    assert!(!bench.lives(), "no run from a reset comes to more than {ATTEMPTS} attempts");
    let (given_up, mut after) = bench.check_timeouts(&small(record), clock);
    after.numbers[place::TIMEOUT_LIMIT] = record.numbers[place::TIMEOUT_LIMIT];
    for slot in record.sent.slots() {
        after.outgoing_slots[slot].attempts = record.outgoing_slots[slot].attempts;
    }
    (given_up, after)
}

/// The record with attempts and a limit for which the source's shift says what document 01's exact power says
/// of its own: the check uses neither otherwise.
fn small(record: &Record) -> Record {
    let mut small = record.clone();
    small.numbers[place::TIMEOUT_LIMIT] = 2;
    for slot in record.sent.slots() {
        let attempts = record.outgoing_slots[slot].attempts;
        let reached = reaches(attempts, record.numbers[place::TIMEOUT_LIMIT]);
        small.outgoing_slots[slot].attempts = if reached { 2 } else { 1 };
    }
    small
}

/// Whether 2^(attempts - 1), of at least one attempt, is at or above the limit.
fn reaches(attempts: u16, limit: u32) -> bool {
    attempts > ATTEMPTS || 1_u64 << (attempts - 1) >= u64::from(limit)
}

#[cfg(test)]
mod tests {
    use super::*;
    use crate::{
        ops::{
            acknowledgement::{tests::distance, DAY},
            step::add,
        },
        records::sound,
    };

    /// Document 01's check of a sound record: whether it gives up, and the record after it.
    fn told(record: &mut Record, clock: u32) -> bool {
        let entry: Vec<usize> = record.sent.slots().collect();
        let mut back = [0, 0];
        for (place, slot) in entry.iter().enumerate() {
            let command = record.outgoing_slots[*slot].clone();
            if distance(clock, command.sent_time) < command.timeout {
                continue;
            }
            let earliest = &mut record.numbers[place::EARLIEST_TIMEOUT];
            if *earliest == 0 || command.sent_time.wrapping_sub(*earliest) >= DAY {
                *earliest = command.sent_time;
            }
            let (earliest, apart) = (*earliest, distance(clock, *earliest));
            let limits = [place::TIMEOUT_MAXIMUM, place::TIMEOUT_MINIMUM, place::TIMEOUT_LIMIT];
            let [maximum, minimum, limit] = limits.map(|place| record.numbers[place]);
            let often = 2_f64.powi(i32::from(command.attempts) - 1) >= f64::from(limit);
            if earliest != 0 && (apart >= maximum || often && apart >= minimum) {
                return true;
            }
            add(record, place::PACKETS_LOST, 1);
            record.outgoing_slots[*slot].timeout = command.timeout.wrapping_mul(2);
            record.sent.leave(*slot);
            let which = usize::from(command.packet);
            if command.packet {
                add(record, place::IN_TRANSIT, u32::from(command.length).wrapping_neg());
                record.send_reliable.insert(back[which], *slot);
            } else {
                record.outgoing.insert(back[which], *slot);
            }
            back[which] += 1;
            let head = record.sent.slots().next();
            if let Some(head) = head.filter(|head| entry.get(place + 1) == Some(head)) {
                let head = &record.outgoing_slots[head];
                record.numbers[place::NEXT_TIMEOUT] = head.sent_time.wrapping_add(head.timeout);
            }
        }
        false
    }

    /// A sound record whose sent commands come due at about the same time.
    fn record(random: &mut Random) -> Record {
        let mut record = sound::any(random);
        let around = random.pick(&[0, 1_000, DAY, u32::MAX - 1_000, 1 << 31]);
        for slot in record.sent.slots().collect::<Vec<_>>() {
            let command = &mut record.outgoing_slots[slot];
            if !random.once_in(16) {
                command.sent_time = around.wrapping_add(random.below(1_000) as u32);
                command.timeout = random.below(1_500) as u32;
            }
            if !random.once_in(8) {
                let most = random.pick(&[4, 4, 4, 40]);
                command.attempts = 1 + random.below(most) as u16;
            }
        }
        if !random.once_in(4) {
            let far = around.wrapping_sub(DAY);
            record.numbers[place::EARLIEST_TIMEOUT] =
                random.pick(&[0, around, around.wrapping_add(500), far, far.wrapping_sub(1)]);
            record.numbers[place::TIMEOUT_MINIMUM] = random.pick(&[0, 600, 1_200, 30_000]);
            record.numbers[place::TIMEOUT_MAXIMUM] = random.pick(&[900, 2_000, u32::MAX]);
            record.numbers[place::TIMEOUT_LIMIT] = random.pick(&[0, 1, 4, 8, 32, u32::MAX]);
        }
        record
    }

    #[test]
    fn the_source_checks_timeouts_as_document_01_says() {
        let (mut random, mut bench) = (Random::new(1), Bench::new());
        let mut met = [0; 4];
        for _ in 0..20_000 {
            let record = record(&mut random);
            let clock = drawn(&mut random, &record).number(0);
            let mut after = record.clone();
            let given_up = told(&mut after, clock);
            let (got, row) = check(&mut bench, &record, clock);
            assert_eq!((got, row.row()), (given_up, after.row()), "{record:?} at {clock}");
            let moved = after.sent.length < record.sent.length;
            met[usize::from(given_up) * 2 + usize::from(moved)] += 1;
        }
        assert!(met.iter().all(|count| *count >= 1_000), "{met:?}");
    }

    #[test]
    fn a_power_is_exact_past_32_attempts() {
        assert!(reaches(1, 1) && !reaches(1, 2));
        assert!(reaches(32, 1 << 31) && !reaches(32, (1 << 31) + 1));
        assert!(reaches(33, u32::MAX) && reaches(65_535, u32::MAX));
    }
}
