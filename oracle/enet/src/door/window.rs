//! The door to `enet_protocol_handle_send_unsequenced`.

use std::ptr::{addr_of_mut, null_mut};

use super::{
    arrival::verdict,
    command::{size, write},
};
use crate::{
    bench::is_empty, enet_packet_destroy, enet_peer_receive, opened, Bench,
    ENET_PEER_STATE_CONNECTED, ENET_PROTOCOL_COMMAND_FLAG_UNSEQUENCED,
    ENET_PROTOCOL_COMMAND_SEND_UNSEQUENCED,
};

const KIND: u8 = ENET_PROTOCOL_COMMAND_SEND_UNSEQUENCED as u8;
const BYTE: u8 = KIND | ENET_PROTOCOL_COMMAND_FLAG_UNSEQUENCED as u8;
const PAYLOAD: [u8; 4] = [1, 2, 3, 4];

#[derive(Clone, Copy, Debug, PartialEq, Eq)]
pub enum Verdict {
    /// Returned 0, and the dispatched list grew.
    Delivered,
    /// Returned 0, and nothing was queued.
    PassedOver,
    /// Returned -1.
    Refused,
}

/// The unsequenced window after an arrival.
#[derive(Clone, Copy, Debug, PartialEq, Eq)]
pub struct Window {
    pub base: u16,
    pub words: [u32; 32],
    pub verdict: Verdict,
}

impl Bench {
    /// The arrival of a group on a peer of this state; without room the waiting total is at its limit.
    pub fn unsequenced(
        &mut self,
        base: u16,
        words: [u32; 32],
        group: u16,
        room: bool,
        state: u32,
    ) -> Window {
        let mut datagram = write(BYTE, 0, 0, KIND, &[group.into(), PAYLOAD.len() as u32]);
        datagram.extend(PAYLOAD);
        let command = self.receive(&datagram);
        let (host, peer) = (self.host, self.peer);
        unsafe {
            (*peer).incoming_unsequenced_group = base;
            (*peer).unsequenced_window = words;
            (*peer).state = state;
            (*host).maximum_waiting_data = usize::from(room);

            let mut payload = command.add(size(KIND));
            let returned =
                opened::handle_send_unsequenced(host, peer, command.cast(), &mut payload);
            let queued = !is_empty(addr_of_mut!((*peer).dispatched_commands));
            if queued {
                enet_packet_destroy(enet_peer_receive(peer, null_mut()));
            }
            (*peer).state = ENET_PEER_STATE_CONNECTED;

            Window {
                base: (*peer).incoming_unsequenced_group,
                words: (*peer).unsequenced_window,
                verdict: verdict(returned, queued),
            }
        }
    }
}
