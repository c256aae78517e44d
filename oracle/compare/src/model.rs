//! What a script's program keeps from call to call, as the oracle keeps it.

use enet::{
    record::{hash, Record, INCOMING},
    Bench,
};

use crate::{damage::damaged, frame::Frame};

/// How many bytes the store has.
pub const STORE: usize = 49_152;

/// How many bytes a cell of it has, one for each incoming slot.
pub const CELL: usize = STORE / INCOMING;

/// C-11: how many bytes the second store has, in which a block is put together, and the most pieces of one.
pub const SECOND: usize = 32_768;
pub const PIECES: u32 = 64;

/// C-12: how many bytes the snapshot buffer has.
pub const BUFFER: usize = 131_072;

/// The state in which a peer is connected.
pub const CONNECTED: u32 = 5;

/// The state that still takes arrivals and stores none.
pub const DISCONNECT_LATER: u32 = 6;

/// The states that wait for an acknowledgement of command 3, and of 4.
pub const ACKNOWLEDGING_CONNECT: u32 = 2;
pub const DISCONNECTING: u32 = 7;

/// The settings, and how much of both stores an arrival is lent.
#[derive(Clone, Copy)]
pub struct Settings {
    pub mtu: u32,
    pub packet: u32,
    pub waiting: u32,
    pub checksum: bool,
    pub store: u32,
    pub second: u32,
}

impl Settings {
    /// As SCRIPT.md has them at the start.
    pub const START: Settings = Settings {
        mtu: 1_392,
        packet: 33_554_432,
        waiting: 33_554_432,
        checksum: false,
        store: STORE as u32,
        second: SECOND as u32,
    };

    /// Whether each lies in document 01's range.
    pub fn fit(&self) -> bool {
        mtu_fits(self.mtu) && (1..=1_073_741_824).contains(&self.packet)
    }
}

/// Whether document 01 allows this MTU.
pub fn mtu_fits(mtu: u32) -> bool {
    (576..=4_096).contains(&mtu)
}

pub struct Model {
    pub bench: Bench,
    pub settings: Settings,
    pub record: Record,
    pub store: Vec<u8>,
    pub second: Vec<u8>,
    /// The snapshot buffer, and whether ops 33 to 36 are answered: replay and the stored scripts do not have them yet.
    pub buffer: Vec<u8>,
    pub snapshots: bool,
}

impl Model {
    /// As SCRIPT.md has it at the start; each call of the source is made on a new peer that the record is loaded into.
    pub fn new() -> Self {
        Model::on(Bench::new())
    }

    /// The same on one peer of the source that lives through all calls; the record is what it was after the last.
    pub fn living() -> Self {
        Model::on(Bench::living(Settings::START.mtu))
    }

    fn on(bench: Bench) -> Self {
        let settings = Settings::START;
        Model {
            bench,
            settings,
            record: Record::fresh(settings.mtu),
            store: vec![0; STORE],
            second: vec![0; SECOND],
            buffer: vec![0; BUFFER],
            snapshots: false,
        }
    }

    /// A call that the port adds: by hand on a living peer, else by document 01's rule on the record.
    pub fn own<T>(
        &mut self,
        hand: impl FnOnce(&mut Bench, &Record) -> (T, Record),
        rule: impl FnOnce(&mut Record) -> T,
    ) -> T {
        if !self.bench.lives() {
            return rule(&mut self.record);
        }
        let (answer, after) = hand(&mut self.bench, &self.record);
        self.record = after;
        answer
    }

    /// The record's row of numbers; of a living peer, as it is now.
    pub fn row(&self) -> Vec<u32> {
        self.bench.seen().as_ref().unwrap_or(&self.record).row()
    }

    /// What a call that is lent the store refuses first: a store of another length, then what every call refuses.
    pub fn lent_refusal(&self) -> Option<u32> {
        if self.settings.store as usize != STORE {
            return Some(11);
        }
        self.refusal()
    }

    /// The same of a call that is lent both stores.
    pub fn both_refusal(&self) -> Option<u32> {
        if self.settings.second as usize != SECOND {
            return Some(11);
        }
        self.lent_refusal()
    }

    /// Whether what a call that is lent both stores asks first is so: settings in range, and both stores whole.
    pub fn lends_both(&self) -> bool {
        let Settings { store, second, .. } = self.settings;
        self.settings.fit() && (store as usize, second as usize) == (STORE, SECOND)
    }

    /// Lays a packet's bytes into the slot's cell; the cell's bytes past them stay.
    pub fn keep(&mut self, slot: usize, bytes: &[u8]) {
        let cell = &mut self.store[slot * CELL..][..CELL];
        cell[..bytes.len()].copy_from_slice(bytes);
    }

    /// What every call but reset refuses first: settings out of range, then a damaged record.
    pub fn refusal(&self) -> Option<u32> {
        if !self.settings.fit() {
            return Some(11);
        }
        damaged(&self.record).then_some(13)
    }

    /// The line of a call that replies this number and leaves the record as it is now.
    pub fn reply(&self, frame: &Frame, number: u32) -> String {
        self.replies(frame, &[number])
    }

    /// The same with the reply's values after its number.
    pub fn replies(&self, frame: &Frame, numbers: &[u32]) -> String {
        format!("{} # {}", frame.line(numbers), hash(&self.row()))
    }
}
