//! A talk: the calls on the near side's peer by a clock that goes on, and between them the network and the far side.

use std::{collections::VecDeque, io};

use enet::record::{place, Record};

use super::{
    caller,
    far::{Came, Far},
    network::{Mood, Way},
    start::{self, Start},
};
use crate::{
    arriving::looks,
    frame::Frame,
    model::{Model, CELL},
    ops::{acknowledgement::DAY, step::ACKNOWLEDGE},
    output::Output,
    random::Random,
    records::{self, set},
};

/// How much may be under way to the near side while the far side goes on to send.
const UNDER_WAY: usize = 12;

pub struct Talk {
    mood: Mood,
    /// The clock at the start, and the time since then, which does not turn.
    start: u32,
    now: u64,
    /// Until when nothing comes through.
    dark: u64,
    far: Far,
    to_far: Way<Came>,
    to_near: Way<Frame>,
    /// What the caller does next.
    next: VecDeque<Frame>,
    /// How seldom it ends a connection by itself.
    patience: u64,
}

impl Talk {
    /// From the settings and the record of a start.
    pub fn open(
        output: &mut Output,
        random: &mut Random,
        mood: Mood,
        from: Start,
    ) -> io::Result<Self> {
        output.put(&set(&start::settings(random)))?;
        let mut talk = Talk::new(random, mood, Far::facing(&output.model.record));
        match from {
            Start::Reset => talk.reconnect(random),
            Start::Record => {
                let record = start::record(random, talk.start);
                records::make(output, &record)?;
                talk.go_on(random, &record);
            }
        }
        Ok(talk)
    }

    fn new(random: &mut Random, mood: Mood, far: Far) -> Self {
        // Often shortly before a time at which a rule turns.
        let turn = random.pick(&[0, 1 << 16, DAY, 1 << 31]);
        let any = random.number();
        let start = random.pick(&[0, turn - turn.min(9_000), any, 0_u32.wrapping_sub(9_000)]);
        let (to_far, to_near, next) = (Way::new(), Way::new(), VecDeque::new());
        let patience = caller::PATIENCE;
        Talk { mood, start, now: 0, dark: 0, far, to_far, to_near, next, patience }
    }

    /// The same with a caller that seldom ends a connection by itself.
    pub fn patiently(self) -> Self {
        Talk { patience: 16 * caller::PATIENCE, ..self }
    }

    /// A talk that is under way: what the record has sent may still come to the far side.
    fn go_on(&mut self, random: &mut Random, record: &Record) {
        self.far = Far::facing(record);
        for slot in record.sent.slots() {
            let command = &record.outgoing_slots[slot];
            self.send(
                random,
                Came::Command {
                    channel: command.channel.into(),
                    number: command.number.into(),
                    sent_time: command.sent_time,
                },
            );
        }
    }

    pub fn clock(&self) -> u32 {
        self.start.wrapping_add(self.now as u32)
    }

    fn send(&mut self, random: &mut Random, item: Came) {
        if self.now >= self.dark {
            self.to_far.put(random, self.mood, self.now, item);
        }
    }

    fn send_back(&mut self, random: &mut Random, item: Frame) {
        if self.now >= self.dark {
            self.to_near.put(random, self.mood, self.now, item);
        }
    }

    /// A call, and a look at the store where it may have changed.
    pub fn call(&mut self, output: &mut Output, random: &mut Random) -> io::Result<()> {
        let line = self.ask(output, random)?;
        looks(&line).iter().try_for_each(|look| output.put(look))
    }

    /// A call, after what happened since the last one, and its line.
    fn ask(&mut self, output: &mut Output, random: &mut Random) -> io::Result<String> {
        self.pass(random);
        self.far_side(random, &output.model);
        let asked = self.drawn(&output.model, random);
        let line = output.ask(&asked)?;
        self.answered(random, &asked, &line, &output.model.record);
        Ok(line)
    }

    /// Lets some time go by, more while nothing comes through.
    fn pass(&mut self, random: &mut Random) {
        if random.once_in(self.mood.dark()) {
            self.dark = self.now + 10_000 + random.below(60_000);
        }
        let most = match random.below(64) {
            0 => 600,
            _ if self.now < self.dark => 1_500,
            _ => 12,
        };
        self.now += random.below(most);
    }

    /// Takes what came to the far side, and lets it send.
    fn far_side(&mut self, random: &mut Random, model: &Model) {
        while let Some(came) = self.to_far.take(self.now) {
            if let Some(answer) = self.far.takes(came) {
                self.send_back(random, answer);
            }
        }
        if self.to_near.count() >= UNDER_WAY {
            return;
        }
        for packet in self.far.again(self.now) {
            self.send_back(random, packet);
        }
        if random.once_in(4) {
            let channels = model.record.numbers[place::CHANNEL_COUNT];
            let longest = model.settings.packet.min(CELL as u32);
            for packet in self.far.sends(random, channels, longest, self.now) {
                self.send_back(random, packet);
            }
        }
    }

    /// What the caller has still to do, mostly what came in, or what the caller does by itself.
    fn drawn(&mut self, model: &Model, random: &mut Random) -> Frame {
        if let Some(next) = self.next.pop_front() {
            return next;
        }
        if !random.once_in(3) {
            if let Some(mut came) = self.to_near.take(self.now) {
                if came.op == 8 {
                    came.numbers.push(self.clock());
                }
                return came;
            }
        }
        self.next.extend(caller::acts(model, random, self.clock(), self.patience));
        self.next.pop_front().expect("a caller does something")
    }

    /// Lets the caller begin anew.
    pub fn reconnect(&mut self, random: &mut Random) {
        self.next.extend(caller::connect(random));
    }

    /// What an answer leads to, on the way to the far side and with the caller.
    pub fn answered(&mut self, random: &mut Random, asked: &Frame, line: &str, record: &Record) {
        self.next.extend(caller::follow(random, line));
        match asked.op {
            1 if line.starts_with("1 0 ") => {
                self.far = Far::facing(record);
                // Little of what is under way comes to the next peer, whose slots it could hold for good.
                let kept = random.pick(&[0, 0, 0, 2]);
                self.to_far.keep(kept);
                self.to_near.keep(kept);
            }
            7 => {
                if let Some(command) = sent(line) {
                    self.send(random, command);
                }
            }
            11 | 18 if line.starts_with(&format!("{} 0 ", asked.op)) => {
                let (channel, number) = (asked.number(1), asked.number(2));
                self.send(random, Came::Answer { channel, number });
            }
            _ => {}
        }
    }
}

/// The command that a send step replied, if it asks for acknowledgement.
fn sent(line: &str) -> Option<Came> {
    let slot = line.strip_prefix("7 0 1 ")?.split(" # ").next()?;
    let slot: Vec<u32> = slot.split(' ').map(|word| word.parse().expect("a number")).collect();
    let [_, _, sent_time, _, _, _, _, _, _, byte, channel, number, ..] = slot[..] else {
        return None;
    };
    let asks = byte & u32::from(ACKNOWLEDGE) != 0;
    asks.then_some(Came::Command { channel, number, sent_time })
}

#[cfg(test)]
mod tests {
    use super::*;
    use crate::met::{again, done};

    /// What one call did, by the records before and after it.
    fn seen(before: &Record, after: &Record, line: &str) -> Vec<(&'static str, bool)> {
        let base = |record: &Record| record.numbers[place::INCOMING_GROUP];
        let moved = base(before) != base(after);
        let gone = before.sent.length.saturating_sub(after.sent.length);
        let joined = after.dispatched.length.saturating_sub(before.dispatched.length);
        let is = |start: &str| line.starts_with(start);
        vec![
            ("sent", is("7 0 1 ") && after.sent.length > before.sent.length),
            ("sent again", is("7 0 1 ") && again(after) > again(before)),
            ("acknowledged", is("8 0 1 ") && gone == 1),
            ("acknowledged once more", is("8 0 1 ") && gone == 0),
            ("went back", is("9 0 1 ") && gone > 0),
            ("given up", is("9 0 3 ")),
            ("connected", is("8 0 2 ")),
            ("disconnected", is("8 0 3 ")),
            ("disconnected later", is("8 0 4 ")),
            ("of another command", is("8 10 ")),
            ("unsequenced, delivered", is("10 0 1 ") && !moved),
            ("unsequenced, delivered and moved", is("10 0 1 ") && moved),
            ("unsequenced, passed over", is("10 0 0 ")),
            ("unsequenced, no room", is("10 8 ")),
            ("reliable, held", is("11 0 1 ") && joined == 0),
            ("reliable, in order", is("11 0 1 ") && joined == 1),
            ("reliable, closes a gap", is("11 0 1 ") && joined > 1),
            ("reliable, passed over", is("11 0 0 ")),
            ("reliable, no room", is("11 8 ")),
            ("too early or too late", is("10 6 ") || is("11 6 ")),
            ("too long", is("10 7 ") || is("11 7 ")),
            ("a piece, stored", is("18 0 1 ") && joined == 0),
            ("a piece, completes a block", is("18 0 1 ") && joined > 0),
            ("a piece, passed over", is("18 0 0 ")),
            ("a piece, no room", is("18 8 ")),
            ("a block received", is("13 0 2 ")),
            ("received", is("13 0 1 ")),
            ("nothing there", is("13 0 0 ")),
            ("reset", is("1 0 ")),
        ]
    }

    #[test]
    fn whatever_happens_in_a_talk_happens() {
        for from in [Start::Reset, Start::Record] {
            for mood in [Mood::Orderly, Mood::Lossy] {
                let open = |output: &mut Output, random: &mut Random| {
                    Talk::open(output, random, mood, from)
                };
                let done = done((60, 1_000), open, Talk::ask, seen);
                assert!(done.values().all(|count| *count >= 5), "{done:?}");
            }
        }
    }
}
