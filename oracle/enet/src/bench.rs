//! The bench: one host with one connected peer of one channel, both made by the source itself.

use std::{mem::size_of, ptr::addr_of_mut, time::Duration};

use crate::{
    consts::PROTOCOL_MAXIMUM_MTU,
    door::Nodes,
    enet_host_connect, enet_host_create, enet_host_destroy, enet_list_clear, enet_peer_reset,
    opened,
    silent::{Nobody, Silent},
    ENetHost, ENetList, ENetPeer, ENetProtocolHeader, ENET_PEER_STATE_CONNECTED,
    ENET_PROTOCOL_HEADER_FLAG_SENT_TIME,
};

const HEADER: usize = size_of::<ENetProtocolHeader>();

/// The most bytes of commands that a datagram of the source holds.
pub(crate) const ROOM: usize = PROTOCOL_MAXIMUM_MTU - HEADER;

/// A host and its peer; every door leaves the peer connected for the next one.
pub struct Bench {
    pub(crate) host: *mut ENetHost<Silent>,
    pub(crate) peer: *mut ENetPeer<Silent>,
    /// Where the peer lives, the slots of its nodes.
    pub(crate) living: Option<Nodes>,
}

impl Bench {
    pub fn new() -> Self {
        let clock = Box::new(|| Duration::ZERO);
        unsafe {
            let host = match enet_host_create(Silent, 1, 1, 0, 0, clock, Some(0)) {
                Ok(host) => host,
                Err(never) => match never {},
            };
            *(*host).received_address.assume_init_mut() = Some(Nobody);
            Bench { host, peer: connect(host), living: None }
        }
    }

    /// The peer as it was at the start: connected, with the source's own CONNECT in its outgoing list.
    pub(crate) fn renew(&mut self) {
        assert!(!self.lives(), "a living peer is never made anew");
        unsafe {
            enet_peer_reset(self.peer);
            // The source's reset clears the flag first and so leaves the peer linked in this queue.
            enet_list_clear(addr_of_mut!((*self.host).dispatch_queue));
            self.peer = connect(self.host);
        }
    }

    /// Lays a datagram of the source's header and these bytes where the source receives, and answers
    /// the place of its first command. There may be no more bytes than `ROOM`.
    pub(crate) fn receive(&mut self, commands: &[u8]) -> *mut u8 {
        assert!(commands.len() <= ROOM);
        unsafe {
            let data = addr_of_mut!((*self.host).packet_data[0]).cast::<u8>();
            let number = (*self.peer).incoming_peer_id;
            data.cast::<ENetProtocolHeader>().write(ENetProtocolHeader {
                peer_id: (number | ENET_PROTOCOL_HEADER_FLAG_SENT_TIME as u16).to_be(),
                sent_time: 0,
            });
            data.add(HEADER).copy_from_nonoverlapping(commands.as_ptr(), commands.len());
            (*self.host).received_data = data;
            (*self.host).received_data_length = HEADER + commands.len();
            data.add(HEADER)
        }
    }
}

impl Default for Bench {
    fn default() -> Self {
        Self::new()
    }
}

impl Drop for Bench {
    fn drop(&mut self) {
        unsafe { enet_host_destroy(self.host) }
    }
}

/// Whether the list's sentinel stands alone.
pub(crate) unsafe fn is_empty(list: *mut ENetList) -> bool {
    (*list).sentinel.next == addr_of_mut!((*list).sentinel)
}

/// Connects the host's only peer without the handshake.
unsafe fn connect(host: *mut ENetHost<Silent>) -> *mut ENetPeer<Silent> {
    let peer = enet_host_connect(host, Nobody, 1, 0);
    opened::change_state(host, peer, ENET_PEER_STATE_CONNECTED);
    peer
}
