//! The doors to the source's arrivals, dispatch and receive for a clock: a peer that takes packets again and again, each
//! part of a turn by itself.

use std::{
    mem::size_of,
    ptr::{addr_of_mut, null_mut},
};

use super::{
    arrival::{command, handler, Arrival, Handler},
    piece::{self, Piece},
};
use crate::{
    enet_packet_destroy, enet_peer_dispatch_incoming_reliable_commands, enet_peer_receive, opened,
    Bench, ENetPacket, ENetProtocol,
};

/// A connected peer of one channel to which nothing came yet.
#[derive(Default)]
pub struct Receiver(Bench);

/// A datagram of one command, and where its payload begins.
pub struct Datagram {
    bytes: Vec<u8>,
    payload: usize,
    handler: Handler,
}

/// A packet that came out; it is freed with this.
pub struct Taken(*mut ENetPacket);

impl Receiver {
    pub fn make(arrival: &Arrival) -> Datagram {
        datagram(&command(arrival), arrival.rest, handler(arrival))
    }

    pub fn make_piece(piece: &Piece) -> Datagram {
        datagram(&piece::command(piece), piece.rest, opened::handle_send_fragment)
    }

    /// The source's handler and nothing else, with the packet that it allocates; 0 unless it refuses.
    pub fn arrive(&mut self, datagram: &Datagram) -> i32 {
        let (host, peer) = (self.0.host, self.0.peer);
        let bytes = datagram.bytes.as_ptr().cast_mut();
        unsafe {
            (*host).received_data = bytes;
            (*host).received_data_length = datagram.bytes.len();
            let mut payload = bytes.add(datagram.payload);
            (datagram.handler)(host, peer, bytes.cast(), &mut payload)
        }
    }

    /// The source's dispatch of a channel whose last number is set to this one first.
    pub fn dispatch(&mut self, last: u16) {
        unsafe {
            let channel = (*self.0.peer).channels;
            (*channel).incoming_reliable_sequence_number = last;
            enet_peer_dispatch_incoming_reliable_commands(self.0.peer, channel, null_mut());
        }
    }

    /// The source's receive and nothing else.
    pub fn receive(&mut self) -> Option<Taken> {
        let mut channel = 0;
        let packet = unsafe { enet_peer_receive(self.0.peer, addr_of_mut!(channel)) };
        (!packet.is_null()).then_some(Taken(packet))
    }

    /// Frees what is queued and begins anew.
    pub fn renew(&mut self) {
        self.0.renew();
    }
}

fn datagram(command: &[u8], rest: &[u8], handler: Handler) -> Datagram {
    let mut bytes = [command, rest].concat();
    // The source copies a whole union from the command's place.
    bytes.resize(bytes.len().max(size_of::<ENetProtocol>()), 0);
    Datagram { bytes, payload: command.len(), handler }
}

impl Drop for Taken {
    fn drop(&mut self) {
        unsafe { enet_packet_destroy(self.0) }
    }
}

#[cfg(test)]
mod tests {
    use super::*;

    const PAYLOAD: [u8; 4] = [1, 2, 3, 4];

    fn arrival(byte: u8, number: u16, group: u16) -> Datagram {
        let length = PAYLOAD.len() as u16;
        Receiver::make(&Arrival { byte, channel: 0, number, group, length, rest: &PAYLOAD })
    }

    /// A piece of a block of two at number 1.
    fn half(piece: u32) -> Datagram {
        let (length, total, offset) = (PAYLOAD.len() as u16, 8, 4 * piece);
        let fields = Piece {
            byte: 136,
            channel: 0,
            number: 1,
            start: 1,
            length,
            count: 2,
            piece,
            total,
            offset,
            rest: &PAYLOAD,
        };
        Receiver::make_piece(&fields)
    }

    #[test]
    fn what_arrives_in_order_comes_out() {
        let mut receiver = Receiver::default();
        for turn in 1..=3 {
            assert_eq!(receiver.arrive(&arrival(73, 0, turn)), 0);
            assert_eq!(receiver.arrive(&arrival(134, turn, 0)), 0);
        }
        assert_eq!((0..).map_while(|_| receiver.receive()).count(), 6);
    }

    #[test]
    fn what_is_held_comes_out_by_a_dispatch() {
        let mut receiver = Receiver::default();
        assert_eq!(receiver.arrive(&arrival(134, 2, 0)), 0);
        receiver.dispatch(0);
        assert!(receiver.receive().is_none());
        receiver.dispatch(1);
        assert!(receiver.receive().is_some());
        assert!(receiver.receive().is_none());
    }

    #[test]
    fn a_block_comes_out_when_its_last_piece_is_there() {
        let mut receiver = Receiver::default();
        for piece in [1, 1, 0] {
            assert!(receiver.receive().is_none());
            assert_eq!(receiver.arrive(&half(piece)), 0);
        }
        assert!(receiver.receive().is_some());
        assert!(receiver.receive().is_none());
    }

    #[test]
    fn a_peer_begun_anew_has_nothing() {
        let mut receiver = Receiver::default();
        for number in [1, 3] {
            assert_eq!(receiver.arrive(&arrival(134, number, 0)), 0);
        }
        receiver.renew();
        receiver.dispatch(2);
        assert!(receiver.receive().is_none());
    }
}
