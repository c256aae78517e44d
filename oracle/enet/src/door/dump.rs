//! Reads a record back out of the source's structs.

use std::ptr::addr_of_mut;

use super::{
    fields::fields,
    nodes::{incoming_lists, outgoing_lists, walk, Nodes},
    numbers::numbers,
};
use crate::{
    record::{Incoming, List, Outgoing, Record, BITS, MARKS},
    Bench, ENetIncomingCommand, ENetList, ENetListIterator, ENetOutgoingCommand,
    ENET_PROTOCOL_COMMAND_MASK,
};

impl Bench {
    /// The peer as it is; what has a slot keeps it, and a new node takes the lowest free one.
    pub(crate) unsafe fn dump(&self, nodes: &mut Nodes) -> Record {
        self.dump_over(Record::zero(), nodes)
    }

    /// The peer as it is; what does not count stays as this record has it.
    pub(crate) unsafe fn dump_over(&self, mut record: Record, nodes: &mut Nodes) -> Record {
        nodes.follow(self);
        let (host, peer) = (self.host, self.peer);
        for (number, value) in numbers(host, peer).iter().zip(&mut record.numbers) {
            *value = number.get();
        }
        record.words = (*peer).unsequenced_window;

        let into = [&mut record.sent, &mut record.send_reliable, &mut record.outgoing];
        for (list, into) in outgoing_lists(peer).into_iter().zip(into) {
            name(list, into, &nodes.outgoing);
        }
        for (slot, node) in used(&nodes.outgoing) {
            record.outgoing_slots[slot] = outgoing(node.cast());
        }

        let mut into = vec![&mut record.dispatched];
        for (place, channel) in record.channels.iter_mut().enumerate().take((*peer).channel_count) {
            let from = (*peer).channels.add(place);
            channel.numbers = [
                (*from).outgoing_reliable_sequence_number,
                (*from).outgoing_unreliable_sequence_number,
                (*from).incoming_reliable_sequence_number,
                (*from).incoming_unreliable_sequence_number,
            ];
            into.push(&mut channel.list);
        }
        for (list, into) in incoming_lists(peer).into_iter().zip(into) {
            name(list, into, &nodes.incoming);
        }
        record.marks = [0; MARKS];
        for (slot, node) in used(&nodes.incoming) {
            record.incoming_slots[slot] = incoming(node.cast());
            if record.incoming_slots[slot].is_block() {
                record.marks = marks(node.cast());
            }
        }
        record
    }
}

/// Fills the list with the slots of the source's nodes.
unsafe fn name(from: *mut ENetList, into: &mut List, slots: &[ENetListIterator]) {
    into.length = 0;
    for node in walk(from) {
        into.push(slots.iter().position(|there| *there == node).expect("each has a slot"));
    }
}

/// Every used slot and its node.
fn used(slots: &[ENetListIterator]) -> impl Iterator<Item = (usize, ENetListIterator)> + '_ {
    slots.iter().copied().enumerate().filter(|(_, node)| !node.is_null())
}

pub(crate) unsafe fn outgoing(node: *mut ENetOutgoingCommand) -> Outgoing {
    let header = (*node).command.header;
    let kind = header.command & ENET_PROTOCOL_COMMAND_MASK as u8;
    let fields = fields(addr_of_mut!((*node).command), kind);
    Outgoing {
        reliable: (*node).reliable_sequence_number,
        unreliable: (*node).unreliable_sequence_number,
        sent_time: (*node).sent_time,
        timeout: (*node).round_trip_timeout,
        queue_time: (*node).queue_time,
        offset: (*node).fragment_offset,
        length: (*node).fragment_length,
        attempts: (*node).send_attempts,
        packet: !(*node).packet.is_null(),
        byte: header.command,
        channel: header.channel_id,
        number: u16::from_be(header.reliable_sequence_number),
        kind,
        fields: fields.iter().map(|field| field.get()).collect(),
    }
}

unsafe fn incoming(node: *mut ENetIncomingCommand) -> Incoming {
    let header = (*node).command.header;
    Incoming {
        byte: header.command,
        channel: header.channel_id,
        number: (*node).reliable_sequence_number,
        fragments: (*node).fragment_count,
        remaining: (*node).fragments_remaining,
        length: (*(*node).packet).data_length as u32,
    }
}

/// The bits of a block's fragments that came; those past the record's words do not show.
unsafe fn marks(node: *mut ENetIncomingCommand) -> [u32; MARKS] {
    let count = (*node).fragment_count.div_ceil(BITS) as usize;
    let word = |place: usize| unsafe { (*node).fragments.add(place).read() };
    std::array::from_fn(|place| if place < count { word(place) } else { 0 })
}
