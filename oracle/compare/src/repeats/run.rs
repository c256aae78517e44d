//! A random run from a reset, and inserted into it arrivals that repeat groups delivered lately.

use enet::record::place;

use super::log::Log;
use crate::{
    acknowledging,
    arriving::{looks, taken, whole_store},
    frame::Frame,
    model::{Model, Settings, CONNECTED, DISCONNECT_LATER, STORE},
    ops::{
        self, fragment, reliable,
        store::whole_second,
        unsequenced::{self, WINDOW},
    },
    random::Random,
    records::{frame, set},
    sending,
};

/// A frame of a run.
pub struct Line {
    pub frame: Frame,
    /// If it was inserted, how many windows after a delivery.
    pub inserted: Option<u32>,
}

pub struct Run {
    model: Model,
    log: Log,
    /// By how many windows its arrivals move the base at most.
    pace: u64,
    pub lines: Vec<Line>,
    /// How many windows lay between each two deliveries of a group.
    pub apart: Vec<u32>,
}

impl Run {
    /// A run of so many calls, and as many insertions as it comes to.
    pub fn drawn(random: &mut Random, calls: u64) -> Self {
        let mut run = Run {
            model: Model::new(),
            log: Log::default(),
            pace: random.pick(&[1, 2, 4, 8, 31]),
            lines: Vec::new(),
            apart: Vec::new(),
        };
        // This reset is not to be refused: before it, there may be anything.
        run.put(set(&Settings::START), None);
        run.put(frame(1, vec![]), None);
        let mut next = begin(random);
        for _ in 1..calls {
            let asked = next.pop().unwrap_or_else(|| run.call(random));
            if asked.op == 1 {
                next = begin(random);
            }
            run.ask(random, asked);
            while random.once_in(3) {
                run.insert(random);
            }
        }
        run.put(frame(15, vec![]), None);
        run.put(whole_store(), None);
        run.put(whole_second(), None);
        run
    }

    fn put(&mut self, frame: Frame, inserted: Option<u32>) -> String {
        let answer = ops::answer(&mut self.model, &frame);
        self.lines.push(Line { frame, inserted });
        answer
    }

    fn base(&self) -> u32 {
        self.model.record.numbers[place::INCOMING_GROUP]
    }

    /// A call, now and then under other settings, and a look at what it stored or took out.
    fn ask(&mut self, random: &mut Random, asked: Frame) {
        let others = random.once_in(24).then(|| others(random));
        if let Some(others) = &others {
            self.put(set(others), None);
        }
        let before = self.base();
        let line = self.put(asked.clone(), None);
        self.apart.extend(self.log.add(&asked, &line, before, self.base()));
        if others.is_some() {
            self.put(set(&Settings::START), None);
        }
        for look in looks(&line) {
            self.put(look, None);
        }
    }

    /// Inserts a repeat, if anything was delivered lately, now and then under other settings. It must leave no trace
    /// here either: what follows is drawn as if it had not come.
    fn insert(&mut self, random: &mut Random) {
        let Some((group, windows)) = self.recent(random) else {
            return;
        };
        let others = random.once_in(12).then(|| others(random));
        if let Some(others) = &others {
            self.put(set(others), Some(windows));
        }
        let state = |model: &Model| (model.record.row(), model.store.clone(), model.second.clone());
        let before = state(&self.model);
        let asked = arrival(random, &self.model, group);
        let line = self.put(asked, Some(windows));
        assert!(before == state(&self.model), "a repeat at {windows} windows left a trace: {line}");
        if others.is_some() {
            self.put(set(&Settings::START), Some(windows));
        }
    }

    /// A group that was delivered lately, often one of those that are so only just.
    fn recent(&self, random: &mut Random) -> Option<(u16, u32)> {
        let recent = self.log.recent();
        let most = recent.iter().map(|(_, windows)| *windows).max()?;
        let oldest: Vec<_> = recent.iter().copied().filter(|(_, n)| *n == most).collect();
        Some(if random.once_in(3) { random.pick(&oldest) } else { random.pick(&recent) })
    }

    /// A call that suits the record, in two of three an unsequenced arrival.
    fn call(&self, random: &mut Random) -> Frame {
        let record = &self.model.record;
        let state = record.numbers[place::STATE];
        if ![CONNECTED, DISCONNECT_LATER].contains(&state) && random.once_in(4) {
            return frame(3, vec![CONNECTED]);
        }
        // Else there would soon be no room.
        if random.below(16) < record.dispatched.length.into() {
            return frame(13, vec![]);
        }
        match random.below(96) {
            0 if random.once_in(4) => frame(1, vec![]),
            0 => (ops::named("2").expect("the group is known").frame)(random, 0),
            1 => frame(3, vec![random.up_to(9)]),
            2..=4 => frame(3, vec![random.pick(&[CONNECTED, DISCONNECT_LATER])]),
            5..=10 => sending::drawn(&self.model, random),
            11..=16 => acknowledging::drawn(&self.model, random),
            17..=21 => taken::drawn(random, record.numbers[place::CHANNEL_COUNT]),
            22..=27 => reliable::drawn(random, record),
            28..=31 => fragment::drawn(random, record),
            32..=35 => unsequenced::drawn(random, record),
            _ => {
                let group = self.group(random);
                arrival(random, &self.model, group)
            }
        }
    }

    /// A group not far ahead, or one that was delivered already.
    fn group(&self, random: &mut Random) -> u16 {
        let groups = self.log.groups();
        if !groups.is_empty() && random.once_in(5) {
            return random.pick(&groups);
        }
        let windows = if random.once_in(2) { random.below(self.pace + 1) as u16 } else { 0 };
        let within = match random.below(4) {
            0 => random.pick(&[0, WINDOW - 1]),
            1 => random.below(WINDOW.into()) as u16,
            _ => random.below(12) as u16,
        };
        (self.base() as u16).wrapping_add(windows * WINDOW).wrapping_add(within)
    }
}

/// State 5, and before it a begin: what follows a reset, the last of it first.
fn begin(random: &mut Random) -> Vec<Frame> {
    let channels = random.pick(&[1, 2, 8]);
    vec![frame(3, vec![CONNECTED]), frame(2, vec![1_392, channels])]
}

/// An arrival of this group, of any other kind.
fn arrival(random: &mut Random, model: &Model, group: u16) -> Frame {
    let mut frame = unsequenced::drawn(random, &model.record);
    frame.numbers[3] = group.into();
    frame
}

/// Settings that refuse all or most arrivals.
fn others(random: &mut Random) -> Settings {
    let start = Settings::START;
    match random.below(8) {
        0 => Settings { mtu: 575, ..start },
        1 => Settings { store: STORE as u32 - 1, ..start },
        2 => Settings { packet: 1, ..start },
        _ => Settings { waiting: random.below(40) as u32, ..start },
    }
}
