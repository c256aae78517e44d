//! What a talk starts from.

use enet::record::{place, Record};

use crate::{
    model::{Settings, CONNECTED},
    ops::reliable::LAST,
    random::Random,
    records::{
        block,
        sound::{self, Shape},
    },
};

#[derive(Clone, Copy, Debug, PartialEq, Eq)]
pub enum Start {
    Reset,
    Record,
}

impl Start {
    /// Two seeds of four start from a reset, one of each mood.
    pub fn of(seed: u64) -> Self {
        match seed / 2 % 2 {
            0 => Start::Reset,
            _ => Start::Record,
        }
    }
}

/// Settings for a whole talk; with some of them arrivals are refused now and then.
pub fn settings(random: &mut Random) -> Settings {
    let start = Settings::START;
    Settings {
        mtu: random.pick(&[576, 1_392, 4_096]),
        packet: random.pick(&[start.packet, start.packet, 1_000]),
        waiting: if random.once_in(3) { random.pick(&[3_000, 400]) } else { start.waiting },
        checksum: random.once_in(2),
        ..start
    }
}

/// A sound record, connected, mostly such that its peer can go on to talk when the clock stands here.
pub fn record(random: &mut Random, clock: u32) -> Record {
    let mut record = match random.below(6) {
        0 => sound::any(random),
        _ => talking(random, clock),
    };
    record.numbers[place::STATE] = CONNECTED;
    record
}

fn talking(random: &mut Random, clock: u32) -> Record {
    let mut length = |below| random.below(below) as usize;
    let (sent, send_reliable, outgoing) = (length(6), length(4), length(4));
    let channels = (0..1 + length(3)).map(|_| length(3)).collect();
    let shape = Shape { sent, send_reliable, outgoing, dispatched: length(4), channels };
    let mut record = sound::shaped(random, &shape);
    for (place, number) in [
        (place::ROUND_TRIP, random.below(800) as u32),
        (place::ROUND_TRIP_VARIANCE, random.below(100) as u32),
        (place::TIMEOUT_LIMIT, random.pick(&[8, 32, 64])),
        (place::TIMEOUT_MINIMUM, random.pick(&[500, 5_000])),
        (place::TIMEOUT_MAXIMUM, 30_000),
        (place::EARLIEST_TIMEOUT, 0),
        (place::INCOMING_GROUP, 1_024 * random.below(64) as u32),
    ] {
        record.numbers[place] = number;
    }
    out_lately(random, &mut record, clock);
    in_order(random, &mut record);
    record
}

/// Every command as if it had been set up and sent not long ago.
fn out_lately(random: &mut Random, record: &mut Record, clock: u32) {
    for slot in record.used_outgoing() {
        let command = &mut record.outgoing_slots[slot];
        command.number = command.reliable;
        command.sent_time = clock.wrapping_sub(random.below(300) as u32);
        command.timeout = 100 + random.below(900) as u32;
        command.attempts = 1 + random.below(3) as u16;
    }
}

/// Every held packet after a gap, each once and in order, the last numbers often close to where they turn; a block whole.
fn in_order(random: &mut Random, record: &mut Record) {
    for channel in 0..record.open_channels().len() {
        let any = random.up_to(65_535) as u16;
        let last = random.pick(&[65_500, 65_535, 32_767, any]);
        record.channels[channel].numbers[LAST] = last;
        let mut next = last.wrapping_add(1);
        for slot in record.channels[channel].list.slots().collect::<Vec<_>>() {
            next = next.wrapping_add(1 + random.below(2) as u16);
            let held = &mut record.incoming_slots[slot];
            (held.number, held.remaining) = (next, 0);
            let (length, pieces) = (held.length, held.fragments);
            if pieces > 0 {
                next = next.wrapping_add(pieces as u16 - 1);
                block::put_whole(record, slot, length, pieces);
            }
        }
    }
}

#[cfg(test)]
mod tests {
    use super::*;
    use crate::damage::damaged;

    #[test]
    fn every_start_is_sound() {
        let mut random = Random::new(1);
        for clock in 0..500 {
            assert!(!damaged(&record(&mut random, clock)));
            assert!(settings(&mut random).fit());
        }
    }
}
