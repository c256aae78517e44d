//! The door to `enet_peer_disconnect`, which the source's packing ends with in state 6.

use super::nodes::Nodes;
use crate::{enet_peer_disconnect, record::Record, Bench};

impl Bench {
    /// A sound record of state 5 or 6 after the source's disconnect.
    pub fn disconnect(&mut self, record: &Record, data: u32) -> Record {
        let disconnect = |bench: &mut Bench, nodes: &mut Nodes| unsafe {
            enet_peer_disconnect(bench.peer, data);
            // It frees every node, and a new one may lie at the place of an old one.
            *nodes = Nodes::none();
        };
        unsafe { self.call(record, disconnect).1 }
    }
}
