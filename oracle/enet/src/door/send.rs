//! The door to `enet_peer_send`.

use std::ptr::null;

use crate::{
    enet_packet_create, enet_packet_destroy, enet_peer_send, error::PeerSendError, record::Record,
    silent::Silent, Bench, ENetHost, ENetPacket,
};

/// What a send names; its bytes stay with the caller.
#[derive(Clone, Copy, Debug)]
pub struct Packet {
    pub channel: u8,
    pub length: u32,
    pub flags: u32,
}

/// The host's settings that a send looks at: the maximum packet size, and whether there is a checksum.
#[derive(Clone, Copy, Debug)]
pub struct Limits {
    pub packet: u32,
    pub checksum: bool,
}

impl Bench {
    /// Document 01's number for what the source's send returned, and the record after it. As many slots
    /// must be free as the source makes commands.
    pub fn send(&mut self, record: &Record, limits: Limits, packet: Packet) -> (u32, Record) {
        let send = |bench: &mut Bench| unsafe {
            limit(bench.host, limits);
            let made = made(packet);
            let returned = enet_peer_send(bench.peer, packet.channel, made);
            if (*made).reference_count == 0 {
                enet_packet_destroy(made);
            }
            number(returned)
        };
        unsafe { self.call(record, |bench, _| send(bench)) }
    }
}

/// The number of a reply in document 01.
pub(crate) fn number(returned: Result<(), PeerSendError>) -> u32 {
    match returned {
        Ok(()) => 0,
        Err(PeerSendError::NotConnected) => 1,
        Err(PeerSendError::InvalidChannel) => 2,
        Err(PeerSendError::PacketTooLarge) => 3,
        Err(PeerSendError::FragmentsExceeded) => 4,
        Err(PeerSendError::FailedToQueue) => 5,
    }
}

unsafe fn limit(host: *mut ENetHost<Silent>, limits: Limits) {
    (*host).maximum_packet_size = limits.packet as usize;
    // A send only asks whether there is one.
    *(*host).checksum.assume_init_mut() =
        if limits.checksum { Some(Box::new(|_| 0)) } else { None };
}

/// A packet of this length without bytes, so that one of a gigabyte takes no room; no send reads them.
pub(crate) unsafe fn made(packet: Packet) -> *mut ENetPacket {
    let made = enet_packet_create(null(), 0, packet.flags);
    (*made).data_length = packet.length as usize;
    made
}
