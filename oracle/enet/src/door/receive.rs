//! The door to `enet_peer_receive`.

use std::ptr::addr_of_mut;

use super::nodes::Nodes;
use crate::{enet_packet_destroy, enet_peer_receive, record::Record, Bench};

/// A packet that came out: its channel, the slot it stood in, and its length.
#[derive(Clone, Copy, Debug, PartialEq, Eq)]
pub struct Received {
    pub channel: u8,
    pub slot: usize,
    pub length: u32,
}

impl Bench {
    /// What the source's receive takes out of a sound record, if anything, and the record after it.
    pub fn received(&mut self, record: &Record) -> (Option<Received>, Record) {
        let take = |bench: &mut Bench, nodes: &mut Nodes| unsafe {
            let head = (*bench.peer).dispatched_commands.sentinel.next;
            let mut channel = 0;
            let packet = enet_peer_receive(bench.peer, addr_of_mut!(channel));
            if packet.is_null() {
                return None;
            }
            let length = (*packet).data_length as u32;
            if (*packet).reference_count == 0 {
                enet_packet_destroy(packet);
            }
            let slot = nodes.incoming.iter().position(|node| *node == head).expect("it has a slot");
            Some(Received { channel, slot, length })
        };
        unsafe { self.call(record, take) }
    }
}
