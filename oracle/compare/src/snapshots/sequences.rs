//! Random sequences of calls of every kind, with snapshots written, spoilt, carried in and restored between.

use std::io;

use enet::record::place;

use super::{
    draw,
    laying::{carry, put, restore, show, stores, write, write_all},
};
use crate::{
    acknowledging,
    arriving::{looks, start, taken},
    frame::Frame,
    model::{Model, Settings, BUFFER, CONNECTED, DISCONNECT_LATER, SECOND, STORE},
    ops::{fragment, reliable, unsequenced},
    output::Output,
    random::Random,
    records::{self, frame, harm},
    script::miscount,
    sending, sequence,
};

/// A script of so many calls, a third of them about snapshots, in sequences that start from new or random records.
pub fn write_drawn(output: &mut Output, seed: u64, count: u64) -> io::Result<()> {
    output.model.snapshots = true;
    let open = |output: &mut Output, random: &mut Random| {
        Ok((Sequence { length: open(output, random)? }, 16 + random.below(120)))
    };
    sequence::write(output, seed, count, open, Sequence::call)
}

/// The settings of the start, and a record to start from: carried in, or made by calls or by the bench. How long the
/// snapshot is that came, if one did.
fn open(output: &mut Output, random: &mut Random) -> io::Result<usize> {
    start(output)?;
    match random.below(32) {
        0 => {
            let record = harm::any(random);
            records::make(output, &record)?;
        }
        1..=11 => return bring(output, random),
        _ => begin(output, random)?,
    }
    Ok(0)
}

/// A new record with open channels.
fn begin(output: &mut Output, random: &mut Random) -> io::Result<()> {
    output.put(&frame(1, vec![]))?;
    let (mtu, channels) = (random.pick(&[576, 1_392, 4_096]), random.pick(&[1, 2, 3, 8]));
    output.put(&frame(2, vec![mtu, channels]))?;
    output.put(&frame(3, vec![CONNECTED]))
}

/// A snapshot from elsewhere, restored; its length.
fn bring(output: &mut Output, random: &mut Random) -> io::Result<usize> {
    let mut record = draw::any(random);
    if !random.once_in(4) {
        record.numbers[place::STATE] = CONNECTED;
    }
    let bytes = draw::snapshot(random, &record);
    carry(output, &bytes)?;
    Ok(bytes.len())
}

/// What a sequence remembers: how long the snapshot in the buffer is.
struct Sequence {
    length: usize,
}

impl Sequence {
    /// A call, now and then with numbers missing, or under settings that refuse it; then a look at what it left.
    fn call(&mut self, output: &mut Output, random: &mut Random) -> io::Result<()> {
        let mut asked = match random.below(3) {
            0 => match self.carried(output, random)? {
                Some(asked) => asked,
                None => return Ok(()),
            },
            _ => drawn(&output.model, random),
        };
        if random.once_in(64) {
            miscount(&mut asked, random);
        }
        let kept = output.model.settings;
        let others = others(&kept, random);
        if let Some(others) = &others {
            output.put(&records::set(others))?;
        }
        let line = output.ask(&asked)?;
        if others.is_some() {
            output.put(&records::set(&kept))?;
        }
        self.answered(output, random, &line)
    }

    /// A frame about snapshots, or another snapshot carried in.
    fn carried(&mut self, output: &mut Output, random: &mut Random) -> io::Result<Option<Frame>> {
        let asked = match random.below(16) {
            0 => {
                self.length = bring(output, random)?;
                return Ok(None);
            }
            1 => {
                let place = random.below(self.length as u64 + 2) as usize;
                let byte = output.model.buffer[place] ^ (1 << random.below(8));
                put(output, place, &[byte])?;
                return Ok(None);
            }
            2 => show(random.below(self.length as u64 + 2) as usize, 12),
            3 => write(self.length + random.below(3) as usize),
            4 => write(random.pick(&[0, 100, BUFFER - 1, BUFFER, BUFFER + 1])),
            5 => frame(33, vec![random.pick(&[0, 2, 3]), BUFFER as u32]),
            6 => restore(self.length + random.below(3) as usize),
            7 => restore(random.below(self.length as u64 + 2) as usize),
            8..=11 => restore(self.length),
            _ => write_all(),
        };
        Ok(Some(asked))
    }

    /// Remembers the length of what was written, looks at what was restored, and goes on after a reset.
    fn answered(&mut self, output: &mut Output, random: &mut Random, line: &str) -> io::Result<()> {
        if let Some(written) = line.strip_prefix("33 0 ") {
            let length = written.split(' ').next().and_then(|word| word.parse().ok());
            self.length = length.expect("a written snapshot has a length");
        }
        if line.starts_with("34 0 ") {
            stores(output)?;
        }
        if line.starts_with("1 0 ") {
            begin(output, random)?;
        }
        looks(line).iter().try_for_each(|look| output.put(look))?;
        sequence::look(output, random)
    }
}

/// A call of every other kind that suits the record.
fn drawn(model: &Model, random: &mut Random) -> Frame {
    let record = &model.record;
    let takes = [CONNECTED, DISCONNECT_LATER].contains(&record.numbers[place::STATE]);
    if !takes && random.once_in(3) {
        return frame(3, vec![CONNECTED]);
    }
    match random.below(48) {
        0 => frame(1, vec![]),
        1 => records::drawn("2", random),
        2 => records::drawn("3", random),
        3..=12 => fragment::drawn(random, record),
        13..=20 => reliable::drawn(random, record),
        21..=26 => unsequenced::drawn(random, record),
        27..=33 => taken::drawn(random, record.numbers[place::CHANNEL_COUNT]),
        34..=40 => sending::drawn(model, random),
        _ => acknowledging::drawn(model, random),
    }
}

/// Other settings for a call, now and then: out of range, or a part of a store.
fn others(kept: &Settings, random: &mut Random) -> Option<Settings> {
    match random.below(160) {
        0 => Some(Settings { mtu: random.pick(&[575, 4_097]), ..*kept }),
        1 => Some(Settings { packet: 0, ..*kept }),
        2 => Some(Settings { store: random.up_to(STORE as u32 - 1), ..*kept }),
        3 => Some(Settings { second: random.up_to(SECOND as u32 - 1), ..*kept }),
        _ => None,
    }
}

#[cfg(test)]
mod tests {
    use super::*;
    use crate::met::{assert_met, replies};

    #[test]
    fn every_reply_is_met() {
        let met = replies(|output| write_drawn(output, 1, 20_000));
        let replies = [
            "33 11", "33 12", "33 13", "33 15", "34 0", "34 11", "34 13", "34 15", "35", "18 0 1",
            "18 0 0", "11 0 1", "10 0 1", "13 0 1", "13 0 2", "5 0", "7 0 1", "8 0 1", "9 0 1",
        ];
        assert_met(&met, 5, &replies);
        assert_met(&met, 1, &["33 bad"]);
        assert!(met.iter().filter(|(reply, _)| reply.starts_with("33 0 ")).count() > 100);
    }
}
