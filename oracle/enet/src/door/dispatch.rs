//! The door to `enet_peer_dispatch_incoming_reliable_commands`.

use std::ptr::null_mut;

use crate::{enet_peer_dispatch_incoming_reliable_commands, record::Record, Bench};

impl Bench {
    /// A sound record after the source dispatched this channel, which must be below the count.
    pub fn dispatch(&mut self, record: &Record, channel: usize) -> Record {
        let dispatch = |bench: &mut Bench| unsafe {
            let channel = (*bench.peer).channels.add(channel);
            enet_peer_dispatch_incoming_reliable_commands(bench.peer, channel, null_mut());
        };
        unsafe { self.call(record, |bench, _| dispatch(bench)).1 }
    }
}
