//! The slots of both pools.

/// An outgoing command; kind 0, which no frame can set, is a slot as made new.
#[derive(Clone, Debug, Default, PartialEq, Eq)]
pub struct Outgoing {
    pub reliable: u16,
    pub unreliable: u16,
    pub sent_time: u32,
    pub timeout: u32,
    pub queue_time: u32,
    pub offset: u32,
    pub length: u16,
    pub attempts: u16,
    pub packet: bool,
    pub byte: u8,
    pub channel: u8,
    pub number: u16,
    pub kind: u8,
    pub fields: Vec<u32>,
}

impl Outgoing {
    /// The numbers before the kind and the fields.
    pub fn numbers(&self) -> [u32; 12] {
        [
            self.reliable.into(),
            self.unreliable.into(),
            self.sent_time,
            self.timeout,
            self.queue_time,
            self.offset,
            self.length.into(),
            self.attempts.into(),
            self.packet.into(),
            self.byte.into(),
            self.channel.into(),
            self.number.into(),
        ]
    }
}

/// A packet that came in, or a block, without its bytes.
#[derive(Clone, Debug, Default, PartialEq, Eq)]
pub struct Incoming {
    pub byte: u8,
    pub channel: u8,
    pub number: u16,
    pub fragments: u32,
    pub remaining: u32,
    pub length: u32,
}

impl Incoming {
    /// Whether it came in pieces, or is to.
    pub fn is_block(&self) -> bool {
        self.fragments != 0
    }

    pub fn numbers(&self) -> [u32; 6] {
        [
            self.byte.into(),
            self.channel.into(),
            self.number.into(),
            self.fragments,
            self.remaining,
            self.length,
        ]
    }
}
