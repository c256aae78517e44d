//! The lists that a send step may name.

use super::{List, Record};

#[derive(Clone, Copy, Debug, PartialEq, Eq)]
pub enum Queue {
    Outgoing,
    SendReliable,
}

impl Queue {
    /// By its number.
    pub fn numbered(number: u32) -> Option<Self> {
        match number {
            0 => Some(Queue::Outgoing),
            1 => Some(Queue::SendReliable),
            _ => None,
        }
    }

    pub fn list(self, record: &mut Record) -> &mut List {
        match self {
            Queue::Outgoing => &mut record.outgoing,
            Queue::SendReliable => &mut record.send_reliable,
        }
    }
}
