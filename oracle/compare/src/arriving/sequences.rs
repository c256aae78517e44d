//! Random sequences of every call, most of them arrivals.

use std::io;

use enet::record::place;

use super::{kept::Kept, start, stores, taken, whole_store};
use crate::{
    frame::Frame,
    mix::Mix,
    model::{Model, Settings, CELL, CONNECTED, DISCONNECT_LATER, STORE},
    ops::{self, fragment, reliable, unsequenced},
    output::Output,
    random::Random,
    records::{self, frame, harm, sound},
    script::miscount,
    sending, sequence,
};

/// A script of so many calls of ops 1 to 7 and 10 to 13, and of 8, 9, 14 and 18 where the mix has them, in sequences
/// that start from new or random records.
pub fn write(output: &mut Output, seed: u64, count: u64, mix: Mix) -> io::Result<()> {
    let open = |output: &mut Output, random: &mut Random| {
        open(output, random)?;
        Ok((Sequence::new(mix), 8 + random.below(56)))
    };
    sequence::write(output, seed, count, open, Sequence::call)
}

/// The settings of the start, and a record to start from: mostly a new one, since it takes few frames.
fn open(output: &mut Output, random: &mut Random) -> io::Result<()> {
    start(output)?;
    let mut record = match random.below(32) {
        0 => harm::any(random),
        1 => sound::any(random),
        2..=5 => taken::waiting(random),
        _ => return begin(output, random),
    };
    if !random.once_in(8) {
        record.numbers[place::STATE] = state(random);
    }
    records::make(output, &record)
}

/// A new record with open channels, its window and its last numbers anywhere or close to where they turn.
fn begin(output: &mut Output, random: &mut Random) -> io::Result<()> {
    output.put(&frame(1, vec![]))?;
    let channels = random.pick(&[1, 1, 2, 3, 8]);
    output.put(&frame(2, vec![1_392, channels]))?;
    output.put(&frame(3, vec![state(random)]))?;
    let any = random.up_to(65_535);
    let base = random.pick(&[0, 1_024, 31_744, 32_768, 33_792, 64_512, any]);
    output.put(&frame(20, vec![place::INCOMING_GROUP as u32, base]))?;
    if random.once_in(4) {
        output.put(&frame(20, vec![64 + random.below(32) as u32, random.number()]))?;
    }
    for channel in 0..channels.min(2) {
        let any = random.up_to(65_535);
        let last = random.pick(&[0, 4_095, 32_767, 32_768, 65_530, 65_535, any]);
        output.put(&frame(22, vec![channel, reliable::LAST as u32, last]))?;
    }
    Ok(())
}

/// Mostly 5, often 6, now and then another.
fn state(random: &mut Random) -> u32 {
    match random.below(16) {
        0 => random.up_to(9),
        1..=3 => DISCONNECT_LATER,
        _ => CONNECTED,
    }
}

/// What a sequence remembers: some arrivals, to repeat them.
struct Sequence {
    kept: Kept,
    mix: Mix,
}

impl Sequence {
    fn new(mix: Mix) -> Self {
        Sequence { kept: Kept::default(), mix }
    }

    /// A call, now and then with numbers missing, or under other settings; then a look at what it left.
    fn call(&mut self, output: &mut Output, random: &mut Random) -> io::Result<()> {
        let mut asked = self.drawn(&output.model, random);
        if random.once_in(64) {
            miscount(&mut asked, random);
        }
        let kept = output.model.settings;
        let others = others(&output.model, random, &asked);
        if let Some(others) = &others {
            output.put(&records::set(others))?;
        }
        self.kept.remember(&asked, random);
        let free = output.model.record.free_incoming();
        if stores(output, &asked)? {
            look(output, random, free.expect("it was stored"))?;
        }
        sequence::look(output, random)?;
        if others.is_some() {
            output.put(&records::set(&kept))?;
        }
        // Nothing more would come in before another begin.
        if asked.op == 1 {
            begin(output, random)?;
        }
        Ok(())
    }

    fn drawn(&self, model: &Model, random: &mut Random) -> Frame {
        let numbers = &model.record.numbers;
        let count = numbers[place::CHANNEL_COUNT];
        // In another state every arrival is refused.
        if ![CONNECTED, DISCONNECT_LATER].contains(&numbers[place::STATE]) && random.once_in(4) {
            return frame(3, vec![CONNECTED]);
        }
        if let Some(frame) = self.mix.more(model, random, 5) {
            return frame;
        }
        if self.mix == Mix::All && random.once_in(12) {
            return fragment::drawn(random, &model.record);
        }
        match random.below(64) {
            0 if random.once_in(3) => frame(1, vec![]),
            0 => (ops::named("2").expect("the group is known").frame)(random, 0),
            1 => (ops::named("3").expect("the group is known").frame)(random, 0),
            2..=3 => frame(3, vec![state(random)]),
            4..=7 => sending::drawn(model, random),
            8..=20 => taken::drawn(random, count),
            21..=26 if !self.kept.is_empty() => self.kept.any(random),
            21..=42 => unsequenced::drawn(random, &model.record),
            _ => reliable::drawn(random, &model.record),
        }
    }
}

/// Other settings for a call, now and then: out of range, a part of the store, or close to what is held.
fn others(model: &Model, random: &mut Random, asked: &Frame) -> Option<Settings> {
    let kept = model.settings;
    let length = asked.number(if asked.op == 10 { 4 } else { 3 });
    let total = model.record.numbers[place::WAITING];
    let near = |random: &mut Random, number: u32| {
        number.wrapping_add(random.below(3) as u32).wrapping_sub(1)
    };
    match random.below(96) {
        0 => Some(Settings { mtu: random.pick(&[575, 4_097]), ..kept }),
        1 => Some(Settings { packet: random.pick(&[0, (1 << 30) + 1]), ..kept }),
        2..=3 => {
            let store = STORE as u32;
            Some(Settings { store: random.pick(&[store - 1, store - 1, 0]), ..kept })
        }
        4..=6 => Some(Settings { packet: near(random, length), ..kept }),
        7..=14 => Some(Settings { waiting: near(random, total), ..kept }),
        _ => None,
    }
}

/// The whole store's hash, and now and then the bytes of the cell that was written.
fn look(output: &mut Output, random: &mut Random, slot: usize) -> io::Result<()> {
    output.put(&whole_store())?;
    if random.once_in(6) {
        let length = output.model.record.incoming_slots[slot].length;
        let count = if random.once_in(64) { CELL as u32 } else { length.min(64) + 2 };
        output.put(&frame(17, vec![(slot * CELL) as u32, count]))?;
    }
    Ok(())
}

#[cfg(test)]
mod tests {
    use super::*;
    use crate::met::{assert_met, done, replies};
    use enet::record::Record;

    #[test]
    fn so_many_calls_are_made_and_every_reply_is_met() {
        let met = replies(|output| write(output, 1, 20_000, Mix::All));
        let replies = [
            "1 0", "2 0", "2 11", "3 0", "3 11", "4 0", "5 0", "6 0", "7 0 0", "7 0 1", "12 0",
            "12 2", "12 11", "12 13", "12 bad", "13 0 0", "13 0 1", "13 11", "13 13", "10 0 0",
            "10 0 1", "10 6", "10 7", "10 8", "10 9", "10 11", "10 13", "10 bad", "11 0 0",
            "11 0 1", "11 6", "11 7", "11 8", "11 9", "11 11", "11 13", "11 bad", "8 0 0", "8 0 1",
            "8 0 4", "9 0 1", "9 0 3", "14 0 0", "14 0 1", "14 0 2", "18 0 0", "18 0 1", "18 6",
            "18 8", "18 14", "13 0 2",
        ];
        assert_met(&met, 10, &replies);
        let arrivals = |op: &str| -> usize {
            met.iter().filter(|(reply, _)| reply.starts_with(op)).map(|(_, count)| count).sum()
        };
        let all = arrivals("10 ") + arrivals("11 ") + arrivals("18 ");
        assert!(all > 10_000, "most are arrivals: {all}");
    }

    /// What one call did, by the records before and after it.
    fn seen(before: &Record, after: &Record, line: &str) -> Vec<(&'static str, bool)> {
        let base = |record: &Record| record.numbers[place::INCOMING_GROUP];
        let moved = base(before) != base(after);
        let later = before.numbers[place::STATE] == DISCONNECT_LATER;
        let full = before.free_incoming().is_none();
        let dispatched = after.dispatched.length.saturating_sub(before.dispatched.length);
        let lists = || before.channels.iter().zip(&after.channels);
        let held = |more| lists().any(|(b, a)| b.list.length + more == a.list.length);
        let inside = lists().any(|(b, a)| {
            a.list.length > b.list.length && a.list.items().last() == b.list.items().last()
        });
        let gone = after.sent.length < before.sent.length;
        let (ten, eleven) = (line.starts_with("10 "), line.starts_with("11 "));
        let (eight, over) = (line.contains(" 8 #"), line.contains(" 0 0 #"));
        vec![
            ("delivered and moved", ten && moved && dispatched == 1),
            ("delivered in place", ten && !moved && dispatched == 1),
            ("8 and moved", ten && moved && eight),
            ("8 for want of slots", ten && eight && full),
            ("marked in state 6", ten && over && later && before.words != after.words),
            ("passed over, unchanged", ten && over && before == after),
            ("held", eleven && held(1)),
            ("held before another", eleven && inside),
            ("one dispatched", eleven && dispatched == 1),
            ("several dispatched", eleven && dispatched > 1),
            ("reliable 8 for want of slots", eleven && eight && full),
            ("reliable passed over in state 6", eleven && over && later),
            ("acknowledged where it was sent", line.starts_with("8 0 ") && gone),
            ("went back", line.starts_with("9 0 1 ") && gone),
            ("given up", line.starts_with("9 0 3 ")),
        ]
    }

    #[test]
    fn whatever_these_calls_can_do_is_done() {
        let ask = |sequence: &mut Sequence, output: &mut Output, random: &mut Random| {
            let asked = sequence.drawn(&output.model, random);
            sequence.kept.remember(&asked, random);
            output.ask(&asked)
        };
        let open = |output: &mut Output, random: &mut Random| {
            open(output, random).map(|()| Sequence::new(Mix::All))
        };
        let done = done((600, 40), open, ask, seen);
        assert!(done.values().all(|count| *count >= 20), "{done:?}");
    }
}
