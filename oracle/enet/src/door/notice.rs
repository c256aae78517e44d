//! What the source writes when it notifies and has no event to fill in: nothing that could not be put back.

use crate::{Bench, ENetList, ENetListNode, ENetPeerState};

/// The peer's state, flags and event data; the host's counts of peers, its wish to share the bandwidth anew, and its
/// queue of peers to dispatch, in which there is no other peer: all as they were before.
pub(crate) struct Before {
    pub(crate) state: ENetPeerState,
    flags: u16,
    event_data: u32,
    connected: usize,
    limited: usize,
    recalculate: i32,
    queue: ENetList,
    link: ENetListNode,
}

impl Before {
    pub(crate) unsafe fn of(bench: &Bench) -> Self {
        let (host, peer) = (bench.host, bench.peer);
        Before {
            state: (*peer).state,
            flags: (*peer).flags,
            event_data: (*peer).event_data,
            connected: (*host).connected_peers,
            limited: (*host).bandwidth_limited_peers,
            recalculate: (*host).recalculate_bandwidth_limits,
            queue: (*host).dispatch_queue,
            link: (*peer).dispatch_list,
        }
    }

    /// Undoes the notice.
    pub(crate) unsafe fn put_back(self, bench: &Bench) {
        let (host, peer) = (bench.host, bench.peer);
        (*peer).state = self.state;
        (*peer).flags = self.flags;
        (*peer).event_data = self.event_data;
        (*host).connected_peers = self.connected;
        (*host).bandwidth_limited_peers = self.limited;
        (*host).recalculate_bandwidth_limits = self.recalculate;
        (*host).dispatch_queue = self.queue;
        (*peer).dispatch_list = self.link;
    }
}
