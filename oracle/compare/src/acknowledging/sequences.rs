//! Random sequences in which a clock goes on: commands are sent, acknowledged or timed out, and sent again.

use std::io;

use enet::record::{place, Record};

use crate::{
    frame::Frame,
    model::{Model, ACKNOWLEDGING_CONNECT, CONNECTED, DISCONNECTING, DISCONNECT_LATER},
    ops::{
        self,
        acknowledgement::{self, DAY},
        send::fragment,
        setup, throttle, timeouts,
    },
    output::Output,
    random::Random,
    records::{
        self, frame, harm, settings,
        sound::{self, Shape},
        PACKET,
    },
    script::miscount,
    sequence,
};

/// A script of so many calls of ops 1 to 9 and 14, in sequences that start from new or random records.
pub fn write(output: &mut Output, seed: u64, count: u64) -> io::Result<()> {
    let open = |output: &mut Output, random: &mut Random| {
        Ok((Sequence::open(output, random)?, 16 + random.below(112)))
    };
    sequence::write(output, seed, count, open, Sequence::call)
}

/// What a sequence remembers: when it is.
struct Sequence {
    clock: u32,
}

impl Sequence {
    /// Some time, often shortly before one at which a rule turns.
    fn start(random: &mut Random) -> Self {
        let turn = random.pick(&[0, 0, 1 << 16, DAY, 1 << 31]);
        let before = random.below(20_000) as u32;
        let any = random.number();
        let clock = random.pick(&[before, turn, turn.wrapping_sub(before), any]);
        Sequence { clock }
    }

    /// Lets some time go by: often next to none, now and then enough for a timeout or to give up.
    fn pass(&mut self, random: &mut Random) {
        let most = match random.below(512) {
            0 => DAY,
            1..=8 => 40_000,
            9..=48 => 3_000,
            49..=192 => 500,
            _ => 60,
        };
        self.clock = self.clock.wrapping_add(random.below(u64::from(most) + 1) as u32);
    }

    /// The settings of the start, and a record to start from: mostly a new one, since it takes few frames.
    fn open(output: &mut Output, random: &mut Random) -> io::Result<Self> {
        let sequence = Sequence::start(random);
        output.put(&settings(1_392, PACKET))?;
        match random.below(48) {
            0 => records::make(output, &harm::any(random))?,
            1 => records::make(output, &sound::any(random))?,
            2..=12 => records::make(output, &sequence.busy(random))?,
            _ => begin(output, random)?,
        }
        Ok(sequence)
    }

    /// A record that sent some commands not long ago, and has others waiting.
    fn busy(&self, random: &mut Random) -> Record {
        let mut length = || random.below(6) as usize;
        let (sent, send_reliable, outgoing) = (length(), length(), length());
        let shape = Shape { sent, send_reliable, outgoing, dispatched: 0, channels: vec![0; 2] };
        let mut record = sound::shaped(random, &shape);
        record.numbers[place::STATE] = state(random);
        record.numbers[place::ROUND_TRIP] = random.below(1_000) as u32;
        record.numbers[place::TIMEOUT_LIMIT] = random.pick(&[4, 8, 16, 64]);
        record.numbers[place::TIMEOUT_MINIMUM] = random.pick(&[0, 0, 500]);
        record.numbers[place::TIMEOUT_MAXIMUM] = random.pick(&[1_000, 30_000, u32::MAX]);
        if random.once_in(2) {
            record.numbers[place::EARLIEST_TIMEOUT] = 0;
        }
        for slot in record.used_outgoing() {
            let command = &mut record.outgoing_slots[slot];
            command.sent_time = self.clock.wrapping_sub(random.below(1_000) as u32);
            command.timeout = random.below(1_500) as u32;
            command.attempts = 1 + random.below(6) as u16;
        }
        record
    }

    /// A call, now and then with numbers missing, or under settings that refuse it.
    fn call(&mut self, output: &mut Output, random: &mut Random) -> io::Result<()> {
        self.pass(random);
        let mut asked = self.drawn(&output.model, random);
        if random.once_in(96) {
            miscount(&mut asked, random);
        }
        let line = sequence::ask(output, random, &asked, 96, &sequence::BAD)?;
        sequence::look(output, random)?;
        // Nothing could be sent before another begin; and a caller mostly acts when a peer is gone.
        let gone = line.starts_with("9 0 3 ") || line.starts_with("8 0 3 ");
        if asked.op == 1 || (gone && !random.once_in(3)) {
            begin(output, random)?;
        }
        Ok(())
    }

    fn drawn(&self, model: &Model, random: &mut Random) -> Frame {
        let record = &model.record;
        // In another state nothing more would be sent.
        if record.numbers[place::STATE] != CONNECTED && random.once_in(10) {
            return frame(3, vec![CONNECTED]);
        }
        match random.below(128) {
            0 if random.once_in(3) => frame(1, vec![]),
            0 => (ops::named("2").expect("the group is known").frame)(random, 0),
            1..=5 => frame(3, vec![state(random)]),
            6..=9 => frame(4, vec![]),
            10..=31 => send(model, random),
            32..=41 => set_up(record, random),
            42..=85 => self.step(record, random),
            86..=103 => acknowledgement::drawn_at(random, record, self.clock),
            104..=121 => timeouts::at(self.clock),
            _ => throttle::drawn(random, record),
        }
    }

    /// A send step now, of a list in which something waits, if there is one.
    fn step(&self, record: &Record, random: &mut Random) -> Frame {
        let list = match (record.outgoing.length, record.send_reliable.length) {
            (0, 0) if random.once_in(24) => 2,
            (0, 0) => random.below(2) as u32,
            (0, _) => 1,
            (_, 0) => 0,
            _ => random.below(2) as u32,
        };
        frame(7, vec![list, self.clock])
    }
}

/// A new record with open channels; mostly it gives up sooner than one of the defaults.
fn begin(output: &mut Output, random: &mut Random) -> io::Result<()> {
    output.put(&frame(1, vec![]))?;
    output.put(&frame(2, vec![1_392, random.pick(&[1, 1, 2, 8])]))?;
    output.put(&frame(3, vec![CONNECTED]))?;
    if random.once_in(4) {
        return Ok(());
    }
    for (place, values) in [
        (place::TIMEOUT_LIMIT, [0, 2, 4, 8, 32, 32]),
        (place::TIMEOUT_MINIMUM, [0, 500, 700, 2_000, 5_000, 5_000]),
        (place::TIMEOUT_MAXIMUM, [1_000, 5_000, 30_000, 30_000, 30_000, u32::MAX]),
    ] {
        if random.once_in(2) {
            output.put(&frame(20, vec![place as u32, random.pick(&values)]))?;
        }
    }
    if random.once_in(2) {
        let interval = random.pick(&[0, 1, 100, 1_000]);
        output.put(&frame(20, vec![place::THROTTLE_INTERVAL as u32, interval]))?;
    }
    Ok(())
}

/// A state in which something is acknowledged, mostly with an answer of its own.
fn state(random: &mut Random) -> u32 {
    match random.below(8) {
        0 => random.up_to(9),
        1..=2 => ACKNOWLEDGING_CONNECT,
        3..=4 => DISCONNECT_LATER,
        5..=6 => DISCONNECTING,
        _ => CONNECTED,
    }
}

/// A send of one or two pieces, mostly reliable.
fn send(model: &Model, random: &mut Random) -> Frame {
    let count = model.record.numbers[place::CHANNEL_COUNT].clamp(1, 8);
    let mtu = model.record.numbers[place::MTU].clamp(576, 4_096);
    let length = match random.below(4) {
        0 => random.below(2 * u64::from(fragment(mtu, false))) as u32,
        _ => random.below(100) as u32,
    };
    let flags = random.pick(&[0, 1, 1, 1, 1, 2, 8, 9]);
    frame(5, vec![random.below(count.into()) as u32, length, flags])
}

/// A command that a state waits for, or any.
fn set_up(record: &Record, random: &mut Random) -> Frame {
    let count = record.numbers[place::CHANNEL_COUNT].min(255);
    match (random.below(4), record.numbers[place::STATE]) {
        (0..=2, ACKNOWLEDGING_CONNECT) => setup::of(random, 131, 255, 3),
        (0..=2, DISCONNECTING) => setup::of(random, 132, 255, 4),
        _ => setup::drawn(random, count),
    }
}

#[cfg(test)]
mod tests {
    use super::*;
    use crate::met::{again, assert_met, done, replies};

    #[test]
    fn so_many_calls_are_made_and_every_reply_is_met() {
        let met = replies(|output| write(output, 1, 40_000));
        let replies = [
            "1 0", "2 0", "2 11", "3 0", "4 0", "5 0", "6 0", "7 0 0", "7 0 1", "8 0 0", "8 0 1",
            "8 0 2", "8 0 3", "8 0 4", "8 10", "8 11", "8 13", "8 bad", "9 0 1", "9 0 3", "9 11",
            "9 13", "14 0 0", "14 0 1", "14 0 2", "14 11", "14 13",
        ];
        assert_met(&met, 10, &replies);
    }

    /// What one call did, by the records before and after it.
    fn seen(before: &Record, after: &Record, line: &str) -> Vec<(&'static str, bool)> {
        let waiting = |record: &Record| record.outgoing.length + record.send_reliable.length;
        let sent = |record: &Record| record.sent.length;
        let gone = sent(before).saturating_sub(sent(after));
        let (eight, nine) = (line.starts_with("8 0 "), line.starts_with("9 0 "));
        let used = |record: &Record| record.free_outgoing();
        vec![
            ("acknowledged where it was sent", eight && gone == 1),
            ("acknowledged where it waits again", eight && waiting(after) < waiting(before)),
            ("acknowledged nothing", eight && used(after) == used(before)),
            ("nothing went back", nine && gone == 0),
            ("one went back", nine && gone == 1),
            ("several went back", nine && gone > 1),
            ("some went back and some stayed", nine && gone > 0 && sent(after) > 0),
            (
                "both kinds went back",
                nine && {
                    after.outgoing.length > before.outgoing.length
                        && after.send_reliable.length > before.send_reliable.length
                },
            ),
            ("went back before others", nine && gone > 0 && waiting(before) > 0),
            ("given up after some went back", line.starts_with("9 0 3 ") && gone > 0),
            ("given up at once", line.starts_with("9 0 3 ") && gone == 0),
            ("sent again", line.starts_with("7 0 1 ") && again(after) > again(before)),
            (
                "another interval",
                eight && {
                    let epoch = |record: &Record| record.numbers[place::THROTTLE_EPOCH];
                    epoch(before) != 0 && epoch(before) != epoch(after)
                },
            ),
        ]
    }

    #[test]
    fn whatever_these_calls_can_do_is_done() {
        let ask = |sequence: &mut Sequence, output: &mut Output, random: &mut Random| {
            sequence.pass(random);
            let asked = sequence.drawn(&output.model, random);
            output.ask(&asked)
        };
        let done = done((400, 80), Sequence::open, ask, seen);
        assert!(done.values().all(|count| *count >= 10), "{done:?}");
    }
}
