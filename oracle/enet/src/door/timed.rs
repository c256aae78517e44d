//! The doors to `enet_peer_send`, `enet_peer_ping`, the setting up of a disconnect and `enet_peer_reset` for a clock: a peer that makes
//! a call again and again, each part of a turn by itself.

use std::ptr::null_mut;

use super::{
    load::command,
    send::{made, number, Packet},
};
use crate::{
    enet_peer_ping, enet_peer_queue_outgoing_command, enet_peer_reset, enet_peer_reset_queues,
    enet_peer_send, record::Outgoing, Bench, ENetChannel, ENetPacket, ENetProtocol,
    ENET_PEER_STATE_CONNECTED,
};

/// A connected peer of one channel with nothing queued.
pub struct Sender(Bench);

/// A disconnect that asks for an answer, as the source's setting up gets it.
pub struct Disconnecting(ENetProtocol);

/// The channel that a reset would free.
pub struct Aside(*mut ENetChannel);

/// A packet of the source; the queue that it is sent to frees it.
pub struct Made(*mut ENetPacket);

impl Sender {
    pub fn new() -> Self {
        let mut sender = Sender(Bench::new());
        // Its own CONNECT.
        sender.empty();
        sender
    }

    /// A reliable packet of this length, without bytes.
    pub fn make(length: u32) -> Made {
        unsafe { Made(made(Packet { channel: 0, length, flags: 1 })) }
    }

    /// The source's send and nothing else; document 01's number for what it returned, which is 0 for a connected
    /// peer and a packet that is not too long.
    pub fn send(&mut self, packet: &Made) -> u32 {
        unsafe { number(enet_peer_send(self.0.peer, 0, packet.0)) }
    }

    /// The source's ping and nothing else.
    pub fn ping(&mut self) {
        unsafe { enet_peer_ping(self.0.peer) }
    }

    pub fn make_disconnect() -> Disconnecting {
        let disconnect = Outgoing {
            byte: 4 | 128,
            channel: 255,
            kind: 4,
            fields: vec![0],
            ..Outgoing::default()
        };
        Disconnecting(unsafe { command(&disconnect) })
    }

    /// The source's setting up of it, without a packet, and nothing else.
    pub fn set_up(&mut self, disconnect: &Disconnecting) {
        unsafe {
            enet_peer_queue_outgoing_command(self.0.peer, &disconnect.0, null_mut(), 0, 0);
        }
    }

    /// The source's reset and nothing else; the channel is to be aside.
    pub fn reset(&mut self) {
        unsafe { enet_peer_reset(self.0.peer) }
    }

    /// Whether it is as a reset leaves it.
    pub fn is_reset(&self) -> bool {
        unsafe { (*self.0.peer).state == 0 && (*self.0.peer).channel_count == 0 }
    }

    /// Takes the channel away.
    pub fn put_aside(&mut self) -> Aside {
        unsafe {
            let channels = (*self.0.peer).channels;
            (*self.0.peer).channels = null_mut();
            Aside(channels)
        }
    }

    /// Gives the channel back, to a connected peer.
    pub fn put_back(&mut self, aside: Aside) {
        unsafe {
            (*self.0.peer).channels = aside.0;
            (*self.0.peer).channel_count = 1;
            (*self.0.peer).state = ENET_PEER_STATE_CONNECTED;
            (*self.0.host).connected_peers = 1;
        }
    }

    /// Frees what is queued, with the source's own function, and keeps the channel.
    pub fn empty(&mut self) {
        let aside = self.put_aside();
        unsafe { enet_peer_reset_queues(self.0.peer) };
        self.put_back(aside);
    }
}

impl Default for Sender {
    fn default() -> Self {
        Self::new()
    }
}

#[cfg(test)]
mod tests {
    use super::*;
    use crate::{door::nodes::walk, Bench};
    use std::ptr::addr_of_mut;

    /// How many commands wait, in send-reliable and in outgoing.
    fn waiting(bench: &mut Bench) -> [usize; 2] {
        unsafe {
            let peer = bench.peer;
            [
                addr_of_mut!((*peer).outgoing_send_reliable_commands),
                addr_of_mut!((*peer).outgoing_commands),
            ]
            .map(|list| walk(list).len())
        }
    }

    #[test]
    fn a_turn_queues_its_commands_and_is_emptied() {
        let mut sender = Sender::new();
        assert_eq!(waiting(&mut sender.0), [0, 0]);
        for (length, commands) in [(100, 1), (32 * 1_364, 32), (32 * 1_364 + 1, 33)] {
            assert_eq!(sender.send(&Sender::make(length)), 0);
            assert_eq!(waiting(&mut sender.0), [commands, 0]);
            sender.empty();
            assert_eq!(waiting(&mut sender.0), [0, 0]);
        }
    }

    #[test]
    fn a_ping_and_a_disconnect_wait_in_outgoing() {
        let (mut sender, disconnect) = (Sender::new(), Sender::make_disconnect());
        sender.ping();
        assert_eq!(waiting(&mut sender.0), [0, 1]);
        sender.set_up(&disconnect);
        assert_eq!(waiting(&mut sender.0), [0, 2]);
    }

    #[test]
    fn a_reset_peer_is_connected_again() {
        let mut sender = Sender::new();
        assert!(!sender.is_reset());
        let aside = sender.put_aside();
        sender.reset();
        assert!(sender.is_reset());
        sender.put_back(aside);
        assert_eq!(sender.send(&Sender::make(100)), 0);
        assert_eq!(waiting(&mut sender.0), [1, 0]);
    }
}
