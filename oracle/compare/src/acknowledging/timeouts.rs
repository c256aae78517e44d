//! Every input of a set: timeout checks where their rules turn.

use std::io;

use enet::record::{place, Outgoing, Record, OUTGOING};

use super::{case, open, refusals};
use crate::{
    model::CONNECTED,
    ops::{acknowledgement::DAY, timeouts::at},
    output::Output,
    random::Random,
    records::frame,
};

/// The seed of the numbers that a set leaves open.
const SEED: u64 = 1;

/// The clock where the set does not vary it, and when about a command was sent.
const CLOCK: u32 = 100_000;
const SENT: u32 = 99_000;

/// The limits of most records: nothing is given up that was sent then.
const LIMIT: u32 = 32;
const MINIMUM: u32 = 5_000;
const MAXIMUM: u32 = 30_000;

/// The earliest timeout: none, one before, one after what is sent, a day before it, just not.
const EARLIEST: [u32; 5] =
    [0, SENT - 500, SENT + 500, SENT.wrapping_sub(DAY), SENT.wrapping_sub(DAY - 100)];

/// How many wait in outgoing and in send-reliable at entry.
const WAITING: [(usize, usize); 4] = [(0, 0), (2, 1), (0, 2), (1, 0)];

/// A sent command, as far as the check looks at it.
#[derive(Clone, Copy)]
struct Sent {
    time: u32,
    timeout: u32,
    attempts: u16,
    packet: bool,
}

/// The record and the clock of a check.
struct Case {
    sent: Vec<Sent>,
    waiting: (usize, usize),
    earliest: u32,
    limit: u32,
    minimum: u32,
    maximum: u32,
    state: u32,
    clock: u32,
}

impl Case {
    /// These commands, all else as in most records.
    fn of(sent: Vec<Sent>) -> Self {
        Case {
            sent,
            waiting: (0, 0),
            earliest: 0,
            limit: LIMIT,
            minimum: MINIMUM,
            maximum: MAXIMUM,
            state: CONNECTED,
            clock: CLOCK,
        }
    }

    fn put(&self, output: &mut Output) -> io::Result<()> {
        case(output, &self.record(), &at(self.clock))
    }

    fn record(&self) -> Record {
        let mut record = Record::fresh(1_392);
        for (place, number) in [
            (place::STATE, self.state),
            (place::CHANNEL_COUNT, 2),
            (place::NEXT_TIMEOUT, 4),
            (place::EARLIEST_TIMEOUT, self.earliest),
            (place::TIMEOUT_LIMIT, self.limit),
            (place::TIMEOUT_MINIMUM, self.minimum),
            (place::TIMEOUT_MAXIMUM, self.maximum),
            (place::IN_TRANSIT, 500),
            (place::EVENT_DATA, 6),
        ] {
            record.numbers[place] = number;
        }
        // Not in the order of the lists, and each once.
        let mut slots = (0..OUTGOING).map(|place| place * 13 % OUTGOING);
        let mut next = || slots.next().expect("the slots suffice");
        for sent in &self.sent {
            let slot = next();
            record.outgoing_slots[slot] = command(slot, *sent);
            record.sent.push(slot);
        }
        let waits = Sent { time: 1, timeout: 2, attempts: 0, packet: false };
        for _ in 0..self.waiting.0 {
            let slot = next();
            record.outgoing_slots[slot] = command(slot, waits);
            record.outgoing.push(slot);
        }
        for _ in 0..self.waiting.1 {
            let slot = next();
            record.outgoing_slots[slot] = command(slot, Sent { packet: true, ..waits });
            record.send_reliable.push(slot);
        }
        record
    }
}

/// The command of this slot.
fn command(slot: usize, sent: Sent) -> Outgoing {
    let Sent { time, timeout, attempts, packet } = sent;
    let (kind, fields) = if packet { (6, vec![0]) } else { (5, vec![]) };
    Outgoing {
        reliable: slot as u16,
        sent_time: time,
        timeout,
        length: 30 + slot as u16,
        attempts,
        packet,
        // The check asks for no flag.
        byte: if slot % 5 == 0 { kind } else { kind | 128 },
        channel: 1,
        kind,
        fields,
        ..Outgoing::default()
    }
}

/// The command at this place: due just now or long since, or not by one or by far.
fn sent(place: usize, due: bool, packet: bool) -> Sent {
    let time = SENT + place as u32;
    let apart = CLOCK - time;
    let timeout = match (due, place % 2) {
        (true, 0) => apart,
        (true, _) => 500,
        (false, 0) => apart + 1,
        (false, _) => MINIMUM,
    };
    Sent { time, timeout, attempts: 1 + place as u16 % 3, packet }
}

/// Whether this bit is set.
fn bit(pattern: usize, place: usize) -> bool {
    pattern >> place & 1 == 1
}

/// All of the set.
pub fn write(output: &mut Output) -> io::Result<()> {
    let mut random = Random::new(SEED);
    open(output)?;
    write_patterns(output, 6, &EARLIEST)?;
    write_long(output, &mut random, 7..=OUTGOING, 8)?;
    write_given_up(output, 5)?;
    write_full(output)?;
    for attempts in (1..=40).chain([64, 65, 65_535]) {
        write_attempts(output, attempts)?;
    }
    write_clocks(output, &CLOCKS)?;
    write_states(output)?;
    refusals::write(output, &at(CLOCK))?;
    output.put(&frame(15, vec![]))
}

/// A thin slice of it.
pub fn write_slice(output: &mut Output) -> io::Result<()> {
    open(output)?;
    write_patterns(output, 3, &EARLIEST[..1])?;
    write_long(output, &mut Random::new(SEED), [9, OUTGOING].into_iter(), 1)?;
    write_given_up(output, 2)?;
    for attempts in [32, 33] {
        write_attempts(output, attempts)?;
    }
    write_clocks(output, &[DAY])?;
    write_states(output)?;
    refusals::write(output, &at(CLOCK))
}

/// Every pattern of what is due, up to a length, from every earliest timeout, with packets and without.
fn write_patterns(output: &mut Output, longest: usize, earliest: &[u32]) -> io::Result<()> {
    let mut turn = 0;
    for length in 0..=longest {
        for pattern in 0..1 << length {
            for earliest in earliest {
                // Other packets and lists in each turn, so that each pattern meets some of them.
                let packets = [0b010101, 0b110, 0b101010, 0b111001, 0, 0b111111][turn % 6];
                let sent = |place| sent(place, bit(pattern, place), bit(packets, place));
                Case {
                    waiting: WAITING[turn % WAITING.len()],
                    earliest: *earliest,
                    ..Case::of((0..length).map(sent).collect())
                }
                .put(output)?;
                turn += 1;
            }
        }
    }
    Ok(())
}

/// Longer lists, what is due drawn at random, and none, all, all but the first, all but the last.
fn write_long(
    output: &mut Output,
    random: &mut Random,
    lengths: impl Iterator<Item = usize>,
    times: usize,
) -> io::Result<()> {
    for length in lengths {
        for turn in 0..times {
            let due = match turn {
                0 => random.next() as usize,
                1 => 0,
                2 => usize::MAX,
                3 => !1,
                4 => !(1 << (length - 1)),
                _ => random.next() as usize,
            };
            let packets = random.next() as usize;
            let sent = |place| sent(place, bit(due, place), bit(packets, place));
            let mut case = Case::of((0..length).map(sent).collect());
            case.earliest = random.pick(&EARLIEST);
            if length + 3 <= OUTGOING {
                case.waiting = random.pick(&WAITING);
            }
            case.put(output)?;
        }
    }
    Ok(())
}

/// Given up at every place of every list up to a length, with every pattern of what else is due: by the attempts of one
/// command, or by its time, which becomes the earliest.
fn write_given_up(output: &mut Output, longest: usize) -> io::Result<()> {
    for length in 1..=longest {
        for pattern in 0..1 << length {
            for last in (0..length).filter(|place| bit(pattern, *place)) {
                write_last(output, length, pattern, last)?;
            }
        }
    }
    Ok(())
}

/// The last command to be looked at is at this place.
fn write_last(output: &mut Output, length: usize, pattern: usize, last: usize) -> io::Result<()> {
    let packets = pattern.wrapping_mul(5) ^ last;
    let sent = |place| sent(place, bit(pattern, place), bit(packets, place));
    let mut often = Case::of((0..length).map(sent).collect());
    often.sent[last].attempts = 4;
    (often.limit, often.minimum) = (8, 900);
    often.waiting = WAITING[(length + last) % WAITING.len()];
    if length + 3 > OUTGOING {
        often.waiting = (0, 0);
    }
    often.put(output)?;
    let mut long = Case { waiting: often.waiting, ..Case::of((0..length).map(sent).collect()) };
    long.sent[last].time = SENT - MAXIMUM;
    long.put(output)
}

/// All slots sent: given up at the first, in the middle, at the last, with all or none of the others due.
fn write_full(output: &mut Output) -> io::Result<()> {
    for last in [0, 15, 16, 31] {
        for pattern in [usize::MAX, 1 << last, 0x5555_5555 | 1 << last] {
            write_last(output, OUTGOING, pattern, last)?;
        }
    }
    Ok(())
}

/// So many attempts with limits around their power, and the distance around minimum and maximum.
fn write_attempts(output: &mut Output, attempts: u16) -> io::Result<()> {
    let power = 1_u64 << (attempts - 1).min(32);
    let mut limits: Vec<u32> = Vec::new();
    for limit in [0, 1, 32, power - 1, power, power + 1, 1 << 31, u64::from(u32::MAX)] {
        limits.extend(u32::try_from(limit));
    }
    limits.sort();
    limits.dedup();
    let apart = CLOCK - SENT;
    for limit in limits {
        for (minimum, maximum) in
            [(apart, apart + 1), (apart + 1, apart + 1), (apart + 1, apart), (0, u32::MAX)]
        {
            // A second one, which is only met where the first goes back.
            let first = Sent { time: SENT, timeout: apart, attempts, packet: limit % 2 == 0 };
            let second = Sent { timeout: apart + 1, attempts: 1, ..first };
            Case { limit, minimum, maximum, ..Case::of(vec![first, second]) }.put(output)?;
        }
    }
    Ok(())
}

/// Clocks around 0, 65,535, a day, half of all and all.
const CLOCKS: [u32; 11] = [
    0,
    1,
    65_535,
    65_536,
    DAY - 1,
    DAY,
    DAY + 1,
    1 << 31,
    DAY.wrapping_neg(),
    u32::MAX - 1,
    u32::MAX,
];

/// Every clock with times sent before and after it, as far as a rule turns, and earliest timeouts around them.
fn write_clocks(output: &mut Output, clocks: &[u32]) -> io::Result<()> {
    for clock in clocks {
        for ago in [0, 499, 500, 29_999, 30_000, DAY - 1, DAY, 1 << 31, 500_u32.wrapping_neg()] {
            let time = clock.wrapping_sub(ago);
            for earliest in [
                0,
                time,
                time.wrapping_add(1),
                time.wrapping_sub(1),
                time.wrapping_sub(DAY - 1),
                time.wrapping_sub(DAY),
                clock.wrapping_sub(MAXIMUM),
                clock.wrapping_add(MAXIMUM - 1),
            ] {
                let sent = Sent { time, timeout: 500, attempts: 2, packet: true };
                Case { clock: *clock, earliest, ..Case::of(vec![sent]) }.put(output)?;
            }
        }
    }
    Ok(())
}

/// Every state, given up or not; a timeout of 0 is always due, and one of 2^31 doubles to 0.
fn write_states(output: &mut Output) -> io::Result<()> {
    for state in (0..=10).chain([u32::MAX]) {
        for maximum in [1_000, 1_001] {
            let sent = |timeout| Sent { time: SENT, timeout, attempts: 1, packet: false };
            Case { state, maximum, ..Case::of(vec![sent(0), sent(900)]) }.put(output)?;
        }
    }
    for timeout in [1 << 31, u32::MAX] {
        let sent = Sent { time: CLOCK.wrapping_add(1), timeout, attempts: 1, packet: true };
        let far = Sent { time: CLOCK.wrapping_add(1 << 31), ..sent };
        Case { maximum: u32::MAX, ..Case::of(vec![sent, far]) }.put(output)?;
    }
    Ok(())
}

#[cfg(test)]
mod tests {
    use super::*;
    use crate::acknowledging::assert_meets;

    #[test]
    fn the_set_and_its_slice_meet_every_reply() {
        let replies = ["9 0 1", "9 0 3", "9 11", "9 13"];
        assert_meets(write, &replies, 60_000);
        assert_meets(write_slice, &replies, 1_600);
    }
}
