// Stands for src/c/event.rs: the event record, with the numbers of public ENet's enet.h.

use crate::{ENetPacket, ENetPeer, Socket};

pub(crate) const ENET_EVENT_TYPE_NONE: u32 = 0;
pub(crate) const ENET_EVENT_TYPE_CONNECT: u32 = 1;
pub(crate) const ENET_EVENT_TYPE_DISCONNECT: u32 = 2;
pub(crate) const ENET_EVENT_TYPE_RECEIVE: u32 = 3;

pub(crate) struct ENetEvent<S: Socket> {
    pub(crate) type_0: u32,
    pub(crate) peer: *mut ENetPeer<S>,
    pub(crate) channel_id: u8,
    pub(crate) data: u32,
    pub(crate) packet: *mut ENetPacket,
}
