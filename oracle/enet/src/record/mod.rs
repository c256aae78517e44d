//! The record of document 01 as plain data, sound or damaged.

mod list;
pub mod place;
mod queue;
mod row;
mod slot;

pub use list::List;
pub use queue::Queue;
pub use row::hash;
pub use slot::{Incoming, Outgoing};

/// How many slots the outgoing lists share, how many the incoming ones, and how many channels there are.
pub const OUTGOING: usize = 32;
pub const INCOMING: usize = 12;
pub const CHANNELS: usize = 8;

/// The words of the unsequenced window.
pub const WORDS: usize = 32;

/// C-11: the words of marks, a bit for each piece of the block, and the bits of one.
pub const MARKS: usize = 2;
pub const BITS: u32 = u32::BITS;

#[derive(Clone, Debug, PartialEq, Eq)]
pub struct Channel {
    /// Outgoing reliable, outgoing unreliable, incoming reliable, incoming unreliable.
    pub numbers: [u16; 4],
    pub list: List,
}

/// A channel as made new.
impl Default for Channel {
    fn default() -> Self {
        Channel { numbers: [0; 4], list: List::new(INCOMING) }
    }
}

#[derive(Clone, Debug, PartialEq, Eq)]
pub struct Record {
    /// The single numbers, each at its place.
    pub numbers: [u32; place::ALL],
    pub sent: List,
    pub send_reliable: List,
    pub outgoing: List,
    pub dispatched: List,
    pub words: [u32; WORDS],
    pub channels: [Channel; CHANNELS],
    pub outgoing_slots: [Outgoing; OUTGOING],
    pub incoming_slots: [Incoming; INCOMING],
    /// Which pieces of the block are stored.
    pub marks: [u32; MARKS],
}

impl Record {
    /// A record of nothing but 0.
    pub fn zero() -> Self {
        Record {
            numbers: [0; place::ALL],
            sent: List::new(OUTGOING),
            send_reliable: List::new(OUTGOING),
            outgoing: List::new(OUTGOING),
            dispatched: List::new(INCOMING),
            words: [0; WORDS],
            channels: std::array::from_fn(|_| Channel::default()),
            outgoing_slots: std::array::from_fn(|_| Outgoing::default()),
            incoming_slots: std::array::from_fn(|_| Incoming::default()),
            marks: [0; MARKS],
        }
    }

    /// The reset record with every kept number 0, by document 01 and the public defaults.
    pub fn fresh(mtu: u32) -> Self {
        let mut record = Record::zero();
        record.numbers[place::OUTGOING_PEER_ID] = 4_095;
        record.numbers[place::THROTTLE] = 32;
        record.numbers[place::THROTTLE_LIMIT] = 32;
        record.numbers[place::THROTTLE_ACCELERATION] = 2;
        record.numbers[place::THROTTLE_DECELERATION] = 2;
        record.numbers[place::THROTTLE_INTERVAL] = 5_000;
        record.numbers[place::PING_INTERVAL] = 500;
        record.numbers[place::TIMEOUT_LIMIT] = 32;
        record.numbers[place::TIMEOUT_MINIMUM] = 5_000;
        record.numbers[place::TIMEOUT_MAXIMUM] = 30_000;
        record.numbers[place::LAST_ROUND_TRIP] = 500;
        record.numbers[place::LOWEST_ROUND_TRIP] = 500;
        record.numbers[place::ROUND_TRIP] = 500;
        record.numbers[place::MTU] = mtu;
        record.numbers[place::WINDOW_SIZE] = 65_536;
        record
    }

    /// The channels below the count; one above the number of channels is read as that number.
    pub fn open_channels(&self) -> &[Channel] {
        &self.channels[..CHANNELS.min(self.numbers[place::CHANNEL_COUNT] as usize)]
    }

    /// The lists that share the outgoing slots.
    pub fn outgoing_lists(&self) -> [&List; 3] {
        [&self.sent, &self.send_reliable, &self.outgoing]
    }

    /// The lists that share the incoming slots; channels at or above the count have none.
    pub fn incoming_lists(&self) -> Vec<&List> {
        let channels = self.open_channels().iter().map(|channel| &channel.list);
        [&self.dispatched].into_iter().chain(channels).collect()
    }

    /// The slots of blocks; a sound record has at most one.
    pub fn blocks(&self) -> Vec<usize> {
        let used = self.used_incoming().into_iter();
        used.filter(|slot| self.incoming_slots[*slot].is_block()).collect()
    }

    /// Whether this piece is marked; there must be such a bit.
    pub fn marked(&self, piece: u32) -> bool {
        self.marks[(piece / BITS) as usize] >> (piece % BITS) & 1 == 1
    }

    /// Marks a piece.
    pub fn mark(&mut self, piece: u32) {
        self.marks[(piece / BITS) as usize] |= 1 << (piece % BITS);
    }
}
