//! Random sequences of blocks in pieces: cut as a sender cuts them, shuffled, doubled, missing, unlike the first; with whole
//! packets, receives and other calls between.

use std::io;

use enet::record::{place, Record};

use super::cut::Block;
use crate::{
    arriving::{kept::Kept, start, taken},
    frame::Frame,
    model::{Model, Settings, CONNECTED, DISCONNECT_LATER, PIECES, SECOND, STORE},
    ops::{
        fragment,
        reliable::{self, LAST},
        send,
        store::whole_second,
        unsequenced,
    },
    output::Output,
    piecing,
    random::Random,
    records::{self, frame, harm, sound},
    script::miscount,
    sequence,
};

/// A script of so many calls, nearly half of them pieces, in sequences that start from new or random records.
pub fn write(output: &mut Output, seed: u64, count: u64) -> io::Result<()> {
    let open = |output: &mut Output, random: &mut Random| {
        open(output, random)?;
        Ok((Sequence::default(), 16 + random.below(100)))
    };
    sequence::write(output, seed, count, open, Sequence::call)
}

/// The settings of the start, and a record to start from: mostly a new one, since it takes few frames.
fn open(output: &mut Output, random: &mut Random) -> io::Result<()> {
    start(output)?;
    let mut record = match random.below(32) {
        0 => harm::any(random),
        1 => sound::any(random),
        2..=3 => taken::waiting(random),
        4..=7 => piecing::draw::holding(random),
        _ => return begin(output, random),
    };
    if !random.once_in(8) {
        record.numbers[place::STATE] = CONNECTED;
    }
    records::make(output, &record)
}

/// A new record with open channels, its last numbers anywhere or close to where they turn.
fn begin(output: &mut Output, random: &mut Random) -> io::Result<()> {
    output.put(&frame(1, vec![]))?;
    let channels = random.pick(&[1, 1, 2, 3, 8]);
    let mtu = random.pick(&[576, 1_392, 4_096]);
    output.put(&frame(2, vec![mtu, channels]))?;
    output.put(&frame(3, vec![CONNECTED]))?;
    for channel in 0..channels.min(2) {
        let any = random.up_to(65_535);
        let last = random.pick(&[0, 32_767, 65_530, 65_535, any]);
        output.put(&frame(22, vec![channel, LAST as u32, last]))?;
    }
    Ok(())
}

/// What a sequence remembers: pieces on their way, and some arrivals, to repeat them.
#[derive(Default)]
struct Sequence {
    way: Vec<Frame>,
    kept: Kept,
}

impl Sequence {
    /// A call, now and then with numbers missing, or under other settings; then a look at what it left.
    fn call(&mut self, output: &mut Output, random: &mut Random) -> io::Result<()> {
        let mut asked = self.drawn(&output.model, random);
        if random.once_in(96) {
            miscount(&mut asked, random);
        }
        let kept = output.model.settings;
        let others = others(&output.model, random, &asked);
        if let Some(others) = &others {
            output.put(&records::set(others))?;
        }
        self.kept.remember(&asked, random);
        let line = output.ask(&asked)?;
        look(output, random, &asked, &line)?;
        if others.is_some() {
            output.put(&records::set(&kept))?;
        }
        self.answered(random, asked, &line);
        if line.starts_with("1 0 ") {
            self.way.clear();
            begin(output, random)?;
        }
        Ok(())
    }

    /// Mostly a piece that is on its way; often what takes blocks out, or comes between.
    fn drawn(&mut self, model: &Model, random: &mut Random) -> Frame {
        let record = &model.record;
        let numbers = &record.numbers;
        if ![CONNECTED, DISCONNECT_LATER].contains(&numbers[place::STATE]) && random.once_in(3) {
            return frame(3, vec![CONNECTED]);
        }
        if random.below(16) < record.dispatched.length.into() {
            return frame(13, vec![]);
        }
        match random.below(64) {
            0 if random.once_in(4) => frame(1, vec![]),
            0 => records::drawn("2", random),
            1 => frame(3, vec![random.pick(&[CONNECTED, DISCONNECT_LATER, 7])]),
            2..=6 => taken::drawn(random, numbers[place::CHANNEL_COUNT]),
            7..=9 => unsequenced::drawn(random, record),
            10..=14 => reliable::drawn(random, record),
            15..=18 => self.gap(random, record),
            19..=24 => fragment::drawn(random, record),
            25..=27 if !self.kept.is_empty() => self.kept.any(random),
            28 => {
                self.begin(random, record);
                self.next(random, record)
            }
            _ => self.next(random, record),
        }
    }

    /// The next piece that is on its way, mostly of the block that the record has; without one a block begins.
    fn next(&mut self, random: &mut Random, record: &Record) -> Frame {
        if self.way.is_empty() {
            self.begin(random, record);
        }
        let held = record.blocks().first().map(|slot| &record.incoming_slots[*slot]);
        let Some(block) = held.filter(|_| !random.once_in(6)) else {
            return self.way.remove(0);
        };
        let name = (block.channel.into(), block.number.into());
        let own = self.way.iter().position(|piece| (piece.number(1), piece.number(3)) == name);
        match own {
            Some(place) => self.way.remove(place),
            // Another block would only be refused.
            None if block.remaining > 0 => fragment::drawn(random, record),
            None => self.gap(random, record),
        }
    }

    /// A block begins: its pieces in order or not, some of them twice, some not at all, some unlike the first.
    fn begin(&mut self, random: &mut Random, record: &Record) {
        let block = block(random, record);
        let mut pieces = block.pieces(random);
        if random.once_in(2) {
            let order = random.shuffled(pieces.len());
            pieces = order.into_iter().map(|place| pieces[place].clone()).collect();
        }
        for _ in 0..random.below(3) {
            let place = random.below(pieces.len() as u64) as usize;
            let mut other = pieces[place].clone();
            if random.once_in(3) {
                spoil(random, &mut other);
            }
            pieces.insert(random.below(pieces.len() as u64 + 1) as usize, other);
        }
        if pieces.len() > 1 && random.once_in(6) {
            pieces.remove(random.below(pieces.len() as u64) as usize);
        }
        // Behind those of another block, or between them.
        let mixed = random.once_in(4);
        for piece in pieces {
            let place = if mixed { random.below(self.way.len() as u64 + 1) } else { u64::MAX };
            self.way.insert(self.way.len().min(place as usize), piece);
        }
        self.way.truncate(4 * PIECES as usize);
    }

    /// The next packet of a channel that holds others, so that what waits there comes out.
    fn gap(&self, random: &mut Random, record: &Record) -> Frame {
        let mut asked = reliable::drawn(random, record);
        let open = record.open_channels();
        if let Some(channel) = open.iter().position(|channel| channel.list.length > 0) {
            asked.numbers[1] = channel as u32;
            asked.numbers[2] = open[channel].numbers[LAST].wrapping_add(1).into();
        }
        asked
    }

    /// A piece that found no room is sent again, now and then.
    fn answered(&mut self, random: &mut Random, asked: Frame, line: &str) {
        if line.starts_with("18 8 ") && random.once_in(3) {
            self.way.push(asked);
        }
    }
}

/// A block next on some channel, or one soon after; mostly of few pieces, as our own send cuts them or shorter.
fn block(random: &mut Random, record: &Record) -> Block {
    let open = record.open_channels();
    let channel = random.below(open.len().max(1) as u64) as usize;
    let last = open.get(channel).map_or(0, |channel| channel.numbers[LAST]);
    let ahead = random.pick(&[1, 1, 1, 1, 2, 3]);
    let mtu = random.pick(&[576, 576, 1_051, 1_392, 4_096]);
    let cut = match random.below(4) {
        0 => send::fragment(mtu, false),
        1 => 1 + random.below(3) as u32,
        _ => 8 + random.below(40) as u32,
    };
    let most = PIECES.min(SECOND as u32 / cut);
    let count = match random.below(24) {
        0 => most,
        1 => 1 + random.below(most.into()) as u32,
        2..=3 => 1,
        _ => 2 + random.below(4) as u32,
    };
    let total = cut * (count - 1) + 1 + random.below(cut.into()) as u32;
    let start = last.wrapping_add(ahead);
    Block { channel: channel as u32, start, total: total.min(SECOND as u32), cut }
}

/// Another count, total, piece or place in the block.
fn spoil(random: &mut Random, piece: &mut Frame) {
    let which = random.pick(&[3, 5, 6, 7, 8]);
    piece.numbers[which] = match random.below(4) {
        0 => random.pick(&[0, 64, 65, 32_768, 32_769]),
        1 => piece.numbers[which].wrapping_sub(1) & 0xFFFF,
        _ => piece.numbers[which].wrapping_add(1) & 0xFFFF,
    };
}

/// Other settings for a call, now and then: out of range, a part of a store, or close to what is held or comes.
fn others(model: &Model, random: &mut Random, asked: &Frame) -> Option<Settings> {
    let kept = model.settings;
    let total = model.record.numbers[place::WAITING];
    let near = |random: &mut Random, number: u32| {
        number.wrapping_add(random.below(3) as u32).wrapping_sub(1)
    };
    match random.below(96) {
        0 => Some(Settings { mtu: random.pick(&[575, 4_097]), ..kept }),
        1 => Some(Settings { store: random.pick(&[STORE as u32 - 1, 0]), ..kept }),
        2..=3 => Some(Settings { second: random.pick(&[SECOND as u32 - 1, 0]), ..kept }),
        4..=5 => Some(Settings { packet: near(random, asked.number(4)), ..kept }),
        6..=8 => Some(Settings { packet: near(random, asked.number(7)), ..kept }),
        9..=12 => Some(Settings { waiting: near(random, total), ..kept }),
        _ => None,
    }
}

/// What a stored piece or a received block left in the second store, and now and then the record.
fn look(output: &mut Output, random: &mut Random, asked: &Frame, line: &str) -> io::Result<()> {
    if line.starts_with("18 0 1 ") {
        output.put(&frame(16, vec![0, asked.number(7) + 1, 1]))?;
        if random.once_in(6) {
            let count = asked.number(4).min(40) + 2;
            output.put(&frame(17, vec![asked.number(8), count, 1]))?;
        }
    }
    if line.starts_with("13 0 2 ") || (line.starts_with("18 ") && random.once_in(24)) {
        output.put(&whole_second())?;
    }
    sequence::look(output, random)
}

#[cfg(test)]
mod tests {
    use super::*;
    use crate::met::{assert_met, done, replies};

    #[test]
    fn so_many_calls_are_made_and_every_reply_is_met() {
        let met = replies(|output| write(output, 1, 20_000));
        let replies = [
            "1 0", "2 0", "3 0", "12 0", "13 0 0", "13 0 1", "13 0 2", "13 13", "10 0 1", "11 0 0",
            "11 0 1", "11 8", "18 0 0", "18 0 1", "18 6", "18 7", "18 8", "18 9", "18 11", "18 13",
            "18 14", "18 bad",
        ];
        assert_met(&met, 10, &replies);
        let pieces = met.iter().filter(|(reply, _)| reply.starts_with("18 "));
        assert!(pieces.map(|(_, count)| count).sum::<usize>() > 8_000);
    }

    /// What one call did, by the records before and after it.
    fn seen(before: &Record, after: &Record, line: &str) -> Vec<(&'static str, bool)> {
        let (blocks, now) = (before.blocks(), after.blocks());
        let stored = line.starts_with("18 0 1 ");
        let joined = after.dispatched.length.saturating_sub(before.dispatched.length);
        let later = before.numbers[place::STATE] == DISCONNECT_LATER;
        let (eight, over) = (line.starts_with("18 8 "), line.starts_with("18 0 0 "));
        let left = |record: &Record| {
            record.blocks().first().map_or(0, |slot| record.incoming_slots[*slot].remaining)
        };
        let first = stored && blocks.is_empty();
        let complete = stored && left(after) == 0;
        vec![
            ("a first piece", first && !complete),
            ("a first piece that completes", first && complete),
            ("a later piece", stored && !first && !complete),
            ("a later piece that completes", stored && !first && complete),
            ("complete and dispatched", complete && joined == 1),
            ("complete, and what follows too", complete && joined > 1),
            ("complete and held", complete && joined == 0),
            ("8 for a block", eight && !blocks.is_empty()),
            ("8 for want of room", eight && blocks.is_empty()),
            ("passed over in state 6", over && later),
            ("passed over with a block", over && !later && left(before) > 0),
            ("a packet before a block's turn", line.starts_with("11 0 1 ") && joined > 1),
            ("a block taken out", line.starts_with("13 0 2 ")),
            ("a block reset", line.starts_with("1 0 ") && !blocks.is_empty() && now.is_empty()),
        ]
    }

    #[test]
    fn whatever_pieces_can_do_is_done() {
        let ask = |sequence: &mut Sequence, output: &mut Output, random: &mut Random| {
            let asked = sequence.drawn(&output.model, random);
            sequence.kept.remember(&asked, random);
            let line = output.ask(&asked)?;
            sequence.answered(random, asked, &line);
            Ok(line)
        };
        let open = |output: &mut Output, random: &mut Random| {
            open(output, random).map(|()| Sequence::default())
        };
        let done = done((400, 60), open, ask, seen);
        assert!(done.values().all(|count| *count >= 10), "{done:?}");
    }
}
