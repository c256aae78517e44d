//! The door to `enet_peer_ping`.

use crate::{enet_peer_ping, record::Record, Bench};

impl Bench {
    /// A sound record after the source's ping, which a slot must be free for.
    pub fn ping(&mut self, record: &Record) -> Record {
        unsafe { self.call(record, |bench, _| enet_peer_ping(bench.peer)).1 }
    }
}
