//! The door to `enet_protocol_check_outgoing_commands`, the source's packing of a datagram.

use std::{
    mem::{size_of, zeroed},
    ptr::addr_of_mut,
};

use super::{
    dump::outgoing,
    fields::fields,
    nodes::{walk, Nodes},
};
use crate::{
    enet_list_clear, opened,
    record::{place, Outgoing, Record},
    Bench, ENetList, ENetProtocol, ENetProtocolHeader, ENET_PROTOCOL_COMMAND_MASK,
};

/// What the source packed into a datagram.
#[derive(Clone, Debug, Default, PartialEq, Eq)]
pub struct Packed {
    /// Each command: byte, channel, number, fields.
    pub commands: Vec<Vec<u32>>,
    /// The commands with a packet and without acknowledgement, as they were when the datagram was full.
    pub loose: Vec<Outgoing>,
}

impl Bench {
    /// What the source packs of a sound record at this time, and the record after it.
    pub fn pack(&mut self, record: &Record, time: u32) -> (Packed, Record) {
        let pack = |bench: &mut Bench, nodes: &mut Nodes| unsafe {
            bench.empty_datagram(time);
            let packed = bench.fill_datagram();
            // Only its disconnect changes the state: it frees every node, and new ones may lie there.
            if (*bench.peer).state != record.numbers[place::STATE] {
                *nodes = Nodes::none();
            }
            packed
        };
        unsafe { self.call(record, pack) }
    }

    /// The host as `enet_protocol_send_outgoing_commands` has it before it packs.
    unsafe fn empty_datagram(&mut self, time: u32) {
        let host = self.host;
        (*host).service_time = time;
        (*host).header_flags = 0;
        (*host).command_count = 0;
        (*host).buffer_count = 1;
        (*host).packet_size = size_of::<ENetProtocolHeader>();
    }

    unsafe fn fill_datagram(&mut self) -> Packed {
        let (host, peer) = (self.host, self.peer);
        let mut unreliable: ENetList = zeroed();
        enet_list_clear(&mut unreliable);
        opened::check_outgoing_commands(host, peer, &mut unreliable);
        let loose = walk(&mut unreliable).into_iter().map(|node| outgoing(node.cast())).collect();
        let first = addr_of_mut!((*host).commands).cast::<ENetProtocol>();
        let commands = (0..(*host).command_count).map(|place| row(first.add(place))).collect();
        // As the source does once the datagram is sent.
        opened::remove_sent_unreliable_commands(peer, &mut unreliable);
        Packed { commands, loose }
    }
}

/// A packed command's byte, channel, number and fields.
unsafe fn row(command: *mut ENetProtocol) -> Vec<u32> {
    let header = (*command).header;
    let kind = header.command & ENET_PROTOCOL_COMMAND_MASK as u8;
    let number = u16::from_be(header.reliable_sequence_number);
    let mut row = vec![header.command.into(), header.channel_id.into(), number.into()];
    row.extend(fields(command, kind).iter().map(|field| field.get()));
    row
}

#[cfg(test)]
mod tests {
    use super::*;

    /// A record with one channel on which command 6 with number 0 waits, never sent.
    fn waiting() -> Record {
        let mut record = Record::fresh(1_392);
        record.numbers[place::CHANNEL_COUNT] = 1;
        record.outgoing_slots[0] =
            Outgoing { packet: true, byte: 134, kind: 6, fields: vec![0], ..Outgoing::default() };
        record.send_reliable.push(0);
        record
    }

    /// How many commands are packed where the channel's windows in use are these.
    fn packed(windows: u16) -> usize {
        let mut bench = Bench::new();
        unsafe {
            bench.load(&waiting());
            (*(*bench.peer).channels).used_reliable_windows = windows;
            bench.empty_datagram(0);
            bench.fill_datagram().commands.len()
        }
    }

    #[test]
    fn a_window_in_use_holds_back_its_first_number() {
        assert_eq!((packed(0), packed(1), packed(1 << 9), packed(1 << 10)), (1, 0, 0, 1));
    }

    #[test]
    fn a_record_has_no_windows_in_use() {
        let (packed, after) = Bench::new().pack(&waiting(), 7);
        assert_eq!(packed.commands, [[134, 0, 0, 0]]);
        assert_eq!((after.sent.items(), after.outgoing_slots[0].sent_time), (&[0][..], 7));
    }
}
