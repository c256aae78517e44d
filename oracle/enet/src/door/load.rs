//! Lays a sound record out in the source's own structs, allocated as the source allocates them.

use std::{
    alloc::Layout,
    mem::zeroed,
    ptr::{addr_of_mut, null, null_mut},
};

use super::{
    fields::fields,
    nodes::{outgoing_lists, Nodes},
    numbers::numbers,
};
use crate::{
    enet_list_clear, enet_list_insert, enet_malloc, enet_packet_create, enet_peer_reset, opened,
    record::{place, Channel, Incoming, List, Outgoing, Record, BITS},
    Bench, ENetChannel, ENetIncomingCommand, ENetList, ENetListIterator, ENetOutgoingCommand,
    ENetPacket, ENetProtocol, ENetProtocolCommandHeader, ENET_PEER_FLAG_NEEDS_DISPATCH,
    ENET_PEER_STATE_DISCONNECTED,
};

impl Bench {
    /// Makes the peer and the host's count those of a sound record.
    pub(crate) unsafe fn load(&mut self, record: &Record) -> Nodes {
        assert!(!self.lives(), "a living peer is never loaded");
        let (host, peer) = (self.host, self.peer);
        enet_peer_reset(peer);
        enet_list_clear(addr_of_mut!((*host).dispatch_queue));

        for (number, value) in numbers(host, peer).iter().zip(record.numbers) {
            number.set(value);
        }
        (*peer).unsequenced_window = record.words;
        // The source's own change of state keeps the host's count of connected peers right.
        (*peer).state = ENET_PEER_STATE_DISCONNECTED;
        opened::change_state(host, peer, record.numbers[place::STATE]);
        if u32::from((*peer).flags) & ENET_PEER_FLAG_NEEDS_DISPATCH != 0 {
            let queue = addr_of_mut!((*host).dispatch_queue.sentinel);
            enet_list_insert(queue, addr_of_mut!((*peer).dispatch_list).cast());
        }

        let mut nodes = Nodes::none();
        for (list, slots) in outgoing_lists(peer).into_iter().zip(record.outgoing_lists()) {
            fill(list, slots, &record.outgoing_slots, outgoing, &mut nodes.outgoing);
        }
        let dispatched = addr_of_mut!((*peer).dispatched_commands);
        fill(dispatched, &record.dispatched, &record.incoming_slots, incoming, &mut nodes.incoming);
        (*peer).channels = channels(record.open_channels());
        for (place, channel) in record.open_channels().iter().enumerate() {
            let list = addr_of_mut!((*(*peer).channels.add(place)).incoming_reliable_commands);
            fill(list, &channel.list, &record.incoming_slots, incoming, &mut nodes.incoming);
        }
        for slot in record.blocks() {
            set_marks(nodes.incoming[slot].cast(), &record.marks);
        }
        nodes
    }
}

/// Puts a new node for each slot of the list at the end of the source's list.
unsafe fn fill<T>(
    list: *mut ENetList,
    slots: &List,
    pool: &[T],
    make: unsafe fn(&T) -> *mut u8,
    nodes: &mut [ENetListIterator],
) {
    for slot in slots.slots() {
        nodes[slot] = enet_list_insert(addr_of_mut!((*list).sentinel), make(&pool[slot]));
    }
}

pub(crate) unsafe fn outgoing(slot: &Outgoing) -> *mut u8 {
    let node = enet_malloc(Layout::new::<ENetOutgoingCommand>());
    node.cast::<ENetOutgoingCommand>().write(ENetOutgoingCommand {
        outgoing_command_list: zeroed(),
        reliable_sequence_number: slot.reliable,
        unreliable_sequence_number: slot.unreliable,
        sent_time: slot.sent_time,
        round_trip_timeout: slot.timeout,
        queue_time: slot.queue_time,
        fragment_offset: slot.offset,
        fragment_length: slot.length,
        send_attempts: slot.attempts,
        command: command(slot),
        packet: if slot.packet { packet(slot.length.into()) } else { null_mut() },
    });
    node
}

/// The slot's command in the source's own layout.
pub(crate) unsafe fn command(slot: &Outgoing) -> ENetProtocol {
    let mut command = header(slot.byte, slot.channel, slot.number);
    for (field, value) in fields(&mut command, slot.kind).iter().zip(&slot.fields) {
        field.set(*value);
    }
    command
}

pub(crate) unsafe fn incoming(slot: &Incoming) -> *mut u8 {
    let node = enet_malloc(Layout::new::<ENetIncomingCommand>());
    node.cast::<ENetIncomingCommand>().write(ENetIncomingCommand {
        incoming_command_list: zeroed(),
        reliable_sequence_number: slot.number,
        unreliable_sequence_number: 0,
        command: header(slot.byte, slot.channel, slot.number),
        fragment_count: slot.fragments,
        fragments_remaining: slot.remaining,
        fragments: bitmap(slot.fragments),
        packet: packet(slot.length as usize),
    });
    node
}

/// The bits of the fragments that came, none of them set, as the source allocates them; a packet has none.
unsafe fn bitmap(fragments: u32) -> *mut u32 {
    if fragments == 0 {
        return null_mut();
    }
    let count = fragments.div_ceil(BITS) as usize;
    let bits: *mut u32 = enet_malloc(Layout::array::<u32>(count).expect("at most 2^27")).cast();
    bits.write_bytes(0, count);
    bits
}

/// Makes these the bits of a block's node, as many words as it has.
unsafe fn set_marks(node: *mut ENetIncomingCommand, marks: &[u32]) {
    let count = (*node).fragment_count.div_ceil(BITS) as usize;
    for (place, word) in marks.iter().enumerate().take(count) {
        (*node).fragments.add(place).write(*word);
    }
}

unsafe fn header(byte: u8, channel: u8, number: u16) -> ENetProtocol {
    let mut command: ENetProtocol = zeroed();
    command.header = ENetProtocolCommandHeader {
        command: byte,
        channel_id: channel,
        reliable_sequence_number: number.to_be(),
    };
    command
}

/// A packet that one command holds; its bytes are read only where a door lays them in.
unsafe fn packet(length: usize) -> *mut ENetPacket {
    let packet = enet_packet_create(null(), length, 0);
    (*packet).reference_count = 1;
    packet
}

/// The channels as `enet_host_connect` makes them, with the numbers of these.
pub(crate) unsafe fn channels(open: &[Channel]) -> *mut ENetChannel {
    if open.is_empty() {
        return null_mut();
    }
    let channels: *mut ENetChannel =
        enet_malloc(Layout::array::<ENetChannel>(open.len()).expect("at most 8")).cast();
    for (place, channel) in open.iter().enumerate() {
        let made = channels.add(place);
        made.write(zeroed());
        (*made).outgoing_reliable_sequence_number = channel.numbers[0];
        (*made).outgoing_unreliable_sequence_number = channel.numbers[1];
        (*made).incoming_reliable_sequence_number = channel.numbers[2];
        (*made).incoming_unreliable_sequence_number = channel.numbers[3];
        enet_list_clear(addr_of_mut!((*made).incoming_reliable_commands));
        enet_list_clear(addr_of_mut!((*made).incoming_unreliable_commands));
    }
    channels
}
