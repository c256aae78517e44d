//! A part of a peer's life: a talk, and between its calls others that suit the record, with repeats and refusals.

use std::io;

use enet::record::{place, Record};

use crate::{
    arriving::{kept::Kept, looks, taken},
    frame::Frame,
    model::{Model, ACKNOWLEDGING_CONNECT, CONNECTED, DISCONNECTING, DISCONNECT_LATER},
    ops::{
        acknowledgement, fragment,
        reliable::{self, LAST},
        throttle, timeouts,
        unsequenced::{self, WINDOW},
    },
    output::Output,
    random::Random,
    records::{self, frame},
    script::miscount,
    sending, sequence,
    talking::{Mood, Start, Talk},
};

pub struct Life {
    talk: Talk,
    kept: Kept,
}

impl Life {
    /// Of the seed's mood; two seeds of four, one of each mood, have a patient caller and so longer lives.
    pub fn open(output: &mut Output, random: &mut Random, seed: u64) -> io::Result<Self> {
        let talk = Talk::open(output, random, Mood::of(seed), Start::Reset)?;
        let talk = if seed / 2 % 2 == 1 { talk.patiently() } else { talk };
        Ok(Life { talk, kept: Kept::default() })
    }

    /// A call, and now and then a look at the whole record.
    pub fn call(&mut self, output: &mut Output, random: &mut Random) -> io::Result<()> {
        let record = &output.model.record;
        if stuck(record) && random.once_in(24) {
            self.talk.reconnect(random);
        }
        // Its slots would be held for good by what came to the peer before a reset.
        if record.numbers[place::CHANNEL_COUNT] == 0 {
            self.kept.forget();
        }
        if random.once_in(5) {
            self.between(output, random)?;
        } else {
            self.talk.call(output, random)?;
        }
        sequence::look(output, random)
    }

    /// A call from elsewhere, now and then with numbers missing, or under settings that refuse it.
    fn between(&mut self, output: &mut Output, random: &mut Random) -> io::Result<()> {
        let mut asked = self.drawn(&output.model, random);
        if random.once_in(48) {
            miscount(&mut asked, random);
        }
        let line = sequence::ask(output, random, &asked, 48, &sequence::BAD)?;
        self.kept.remember(&asked, random);
        self.talk.answered(random, &asked, &line, &output.model.record);
        looks(&line).iter().try_for_each(|look| output.put(look))
    }

    fn drawn(&self, model: &Model, random: &mut Random) -> Frame {
        let (record, clock) = (&model.record, self.talk.clock());
        // In other states little happens.
        if record.numbers[place::STATE] != CONNECTED && random.once_in(3) {
            return frame(3, vec![CONNECTED]);
        }
        // Nothing else may bring its pieces, and no other block begins before.
        if unfinished(record) && random.once_in(3) {
            return fragment::drawn(random, record);
        }
        match random.below(64) {
            0 => records::drawn("2", random),
            1 => records::drawn("3", random),
            2..=4 => frame(3, vec![state(random)]),
            5..=12 => acknowledgement::drawn_at(random, record, clock),
            13..=16 => timeouts::at(clock),
            17..=20 => throttle::drawn(random, record),
            21..=31 => now(sending::drawn(model, random), clock),
            32..=38 => taken::drawn(random, record.numbers[place::CHANNEL_COUNT]),
            39..=48 if !self.kept.is_empty() => self.kept.any(random),
            39..=50 => unsequenced::drawn(random, record),
            51..=52 => reliable::drawn(random, record),
            53..=54 => near_group(random, record),
            55..=57 => fragment::drawn(random, record),
            _ => near_number(random, record),
        }
    }
}

/// Whether nothing more can come in, however much is received.
fn stuck(record: &Record) -> bool {
    record.free_incoming().is_none() && record.dispatched.length == 0
}

/// Whether a block waits for pieces.
fn unfinished(record: &Record) -> bool {
    record.blocks().iter().any(|slot| record.incoming_slots[*slot].remaining > 0)
}

/// Mostly 5 or 6, or one in which an acknowledgement is answered otherwise.
fn state(random: &mut Random) -> u32 {
    random.pick(&[
        CONNECTED,
        CONNECTED,
        DISCONNECT_LATER,
        DISCONNECT_LATER,
        ACKNOWLEDGING_CONNECT,
        DISCONNECTING,
    ])
}

/// A send step at the time that it is.
fn now(mut asked: Frame, clock: u32) -> Frame {
    if asked.op == 7 {
        asked.numbers[1] = clock;
    }
    asked
}

/// An unsequenced arrival that does not move the base.
fn near_group(random: &mut Random, record: &Record) -> Frame {
    let mut asked = unsequenced::drawn(random, record);
    let base = record.numbers[place::INCOMING_GROUP];
    asked.numbers[3] = base + random.below(WINDOW.into()) as u32;
    asked
}

/// A reliable arrival that is not held for long: of a channel that holds others, where there is one, the next, which closes
/// a gap that the far side left in state 6.
fn near_number(random: &mut Random, record: &Record) -> Frame {
    let mut asked = reliable::drawn(random, record);
    let open = record.open_channels();
    if let Some(channel) = open.iter().position(|channel| channel.list.length > 0) {
        asked.numbers[1] = channel as u32;
    }
    let last = open.get(asked.number(1) as usize).map_or(0, |channel| channel.numbers[LAST]);
    asked.numbers[2] = last.wrapping_add(random.pick(&[0, 1, 1, 1, 1, 2])).into();
    asked
}
