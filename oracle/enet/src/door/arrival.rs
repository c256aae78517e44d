//! The doors to `enet_protocol_handle_send_unsequenced` and `enet_protocol_handle_send_reliable` on a record.

use std::{
    mem::size_of,
    ptr::{addr_of_mut, slice_from_raw_parts},
};

use super::{
    command::write,
    nodes::{walk, Nodes},
    window::Verdict,
};
use crate::{
    opened, record::Record, silent::Silent, Bench, ENetHost, ENetIncomingCommand, ENetListIterator,
    ENetPeer, ENetProtocol, ENET_PROTOCOL_COMMAND_MASK, ENET_PROTOCOL_COMMAND_SEND_UNSEQUENCED,
};

/// The command of an unsequenced arrival; that of the other is 6.
const UNSEQUENCED: u8 = ENET_PROTOCOL_COMMAND_SEND_UNSEQUENCED as u8;

/// A command that came in. Its kind is 6 or 9, by the byte; only the latter has a group.
#[derive(Clone, Copy, Debug)]
pub struct Arrival<'a> {
    pub byte: u8,
    pub channel: u8,
    pub number: u16,
    pub group: u16,
    pub length: u16,
    /// The datagram from the payload's place on, be it longer or shorter than the length says.
    pub rest: &'a [u8],
}

/// The host's settings that an arrival looks at: the maximum packet size and the maximum waiting data.
#[derive(Clone, Copy, Debug)]
pub struct Room {
    pub packet: u32,
    pub waiting: u32,
}

/// What the source did with an arrival, and the bytes that it stored.
#[derive(Clone, Debug, PartialEq, Eq)]
pub struct Arrived {
    pub verdict: Verdict,
    pub bytes: Vec<u8>,
}

pub(crate) type Handler = unsafe fn(
    *mut ENetHost<Silent>,
    *mut ENetPeer<Silent>,
    *const ENetProtocol,
    *mut *mut u8,
) -> i32;

impl Bench {
    /// The arrival on a sound record, by the source's own handler, and the record after it; delivered means
    /// stored. Where the source would store it, a slot must be free.
    pub fn arrive(&mut self, record: &Record, room: Room, arrival: &Arrival) -> (Arrived, Record) {
        let arrive =
            |bench: &mut Bench, nodes: &mut Nodes| unsafe { bench.hand_over(nodes, room, arrival) };
        unsafe { self.call(record, arrive) }
    }

    /// What the source does with the arrival, where no record may be able to show it.
    pub fn judge(&mut self, record: &Record, room: Room, arrival: &Arrival) -> Arrived {
        unsafe {
            let nodes = self.load(record);
            let arrived = self.hand_over(&nodes, room, arrival);
            *self = Bench::new();
            arrived
        }
    }

    /// The loaded peer's arrival.
    unsafe fn hand_over(&mut self, nodes: &Nodes, room: Room, arrival: &Arrival) -> Arrived {
        let command = command(arrival);
        let returned = self.handled(handler(arrival), &command, arrival.rest, arrival.length, room);
        let new = self.new_node(nodes);
        let bytes = new.map_or_else(Vec::new, |node| bytes(node.cast()));
        Arrived { verdict: verdict(returned, new.is_some()), bytes }
    }

    /// What the handler returns for a command with a payload of this length in the rest of its datagram.
    pub(crate) unsafe fn handled(
        &mut self,
        handler: Handler,
        command: &[u8],
        rest: &[u8],
        payload: u16,
        room: Room,
    ) -> i32 {
        let (host, peer) = (self.host, self.peer);
        let mut received = [command, rest].concat();
        let length = received.len();
        // The source copies a whole union from the command's place, and counts on to the payload's end.
        received.resize(size_of::<ENetProtocol>().max(length + usize::from(payload)), 0);
        (*host).received_data = received.as_mut_ptr();
        (*host).received_data_length = length;
        (*host).maximum_packet_size = room.packet as usize;
        (*host).maximum_waiting_data = room.waiting as usize;

        let mut payload = (*host).received_data.add(command.len());
        handler(host, peer, received.as_ptr().cast(), &mut payload)
    }

    /// The node that was not loaded, if there is one.
    pub(crate) unsafe fn new_node(&self, nodes: &Nodes) -> Option<ENetListIterator> {
        let peer = self.peer;
        let mut all = walk(addr_of_mut!((*peer).dispatched_commands));
        for place in 0..(*peer).channel_count {
            let channel = (*peer).channels.add(place);
            all.extend(walk(addr_of_mut!((*channel).incoming_reliable_commands)));
            all.extend(walk(addr_of_mut!((*channel).incoming_unreliable_commands)));
        }
        all.into_iter().find(|node| !nodes.incoming.contains(node))
    }
}

/// The bytes of the command as a handler gets it: the source's loop has swapped the number before.
pub(crate) fn command(arrival: &Arrival) -> Vec<u8> {
    let kind = arrival.byte & ENET_PROTOCOL_COMMAND_MASK as u8;
    let (group, length) = (arrival.group.into(), arrival.length.into());
    let fields = if kind == UNSEQUENCED { vec![group, length] } else { vec![length] };
    write(arrival.byte, arrival.channel, arrival.number.to_be(), kind, &fields)
}

pub(crate) fn handler(arrival: &Arrival) -> Handler {
    match arrival.byte & ENET_PROTOCOL_COMMAND_MASK as u8 {
        UNSEQUENCED => opened::handle_send_unsequenced,
        _ => opened::handle_send_reliable,
    }
}

pub(crate) fn verdict(returned: i32, stored: bool) -> Verdict {
    match (returned, stored) {
        (0, true) => Verdict::Delivered,
        (0, false) => Verdict::PassedOver,
        (-1, false) => Verdict::Refused,
        other => unreachable!("the source answered {other:?}"),
    }
}

/// The bytes of the node's packet.
pub(crate) unsafe fn bytes(node: *mut ENetIncomingCommand) -> Vec<u8> {
    let packet = (*node).packet;
    match (*packet).data_length {
        0 => Vec::new(),
        length => (*slice_from_raw_parts((*packet).data, length)).to_vec(),
    }
}
