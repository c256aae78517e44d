//! The doors to the source's acknowledgement and timeout check for a clock: a peer that awaits acknowledgements again
//! and again, each part of a turn by itself.

use std::{
    alloc::Layout,
    ptr::{addr_of_mut, null_mut},
};

use super::{
    acknowledge::{acknowledging, Acknowledgement},
    load::outgoing,
    nodes::walk,
};
use crate::{
    enet_free, enet_list_insert, enet_list_remove, opened, record::Outgoing, Bench,
    ENetListIterator, ENetOutgoingCommand, ENetProtocol,
};

/// When each command was sent, and how long it may take.
const SENT: u32 = 1_000;
const TIMEOUT: u32 = 500;

/// A connected peer of one channel that has sent commands, numbered from 1 in their order.
pub struct Awaiting {
    bench: Bench,
    packet: bool,
}

/// An acknowledgement as the source's handler gets it.
pub struct Acknowledging(ENetProtocol);

impl Awaiting {
    /// So many sent commands, each with a packet of its own or without.
    pub fn new(count: u16, packet: bool) -> Self {
        let awaiting = Awaiting { bench: Bench::new(), packet };
        unsafe {
            let peer = awaiting.bench.peer;
            // Its own CONNECT.
            let connect = enet_list_remove((*peer).outgoing_commands.sentinel.next);
            enet_free(connect, Layout::new::<ENetOutgoingCommand>());
            // So that no sample is the first.
            (*peer).last_receive_time = 1;
            for number in 1..=count {
                enet_list_insert(awaiting.end(), awaiting.made(number));
            }
        }
        awaiting
    }

    /// The acknowledgement of this number.
    pub fn make(number: u16) -> Acknowledging {
        let came = Acknowledgement { channel: 0, number, sent_time: SENT as u16, clock: 0 };
        Acknowledging(unsafe { acknowledging(came) })
    }

    /// The source's handler and nothing else, with the command that it frees; 0, since the peer is connected.
    pub fn acknowledge(&mut self, came: &Acknowledging) -> i32 {
        let (host, peer) = (self.bench.host, self.bench.peer);
        unsafe {
            (*host).service_time = SENT + TIMEOUT / 2;
            opened::handle_acknowledge(host, null_mut(), peer, &came.0)
        }
    }

    /// Makes the command of this number anew, at its place among the sent ones.
    pub fn put_back(&mut self, number: u16) {
        unsafe {
            let later = |node: &ENetListIterator| {
                (*node.cast::<ENetOutgoingCommand>()).reliable_sequence_number > number
            };
            let sent = walk(addr_of_mut!((*self.bench.peer).sent_reliable_commands));
            let place = sent.into_iter().find(later).unwrap_or(self.end());
            enet_list_insert(place, self.made(number));
        }
    }

    /// The source's check and nothing else, when no command is due yet; 0.
    pub fn check_early(&mut self) -> i32 {
        self.check(SENT + TIMEOUT - 1)
    }

    /// The same when all are due, and none is given up; 0.
    pub fn check_late(&mut self) -> i32 {
        self.check(SENT + TIMEOUT)
    }

    fn check(&mut self, clock: u32) -> i32 {
        let (host, peer) = (self.bench.host, self.bench.peer);
        unsafe {
            (*host).service_time = clock;
            opened::check_timeouts(host, peer, null_mut())
        }
    }

    /// Moves all that went back into the sent list, in their order, and makes them what they were.
    pub fn send_again(&mut self) {
        unsafe {
            let peer = self.bench.peer;
            let lists = [
                addr_of_mut!((*peer).outgoing_send_reliable_commands),
                addr_of_mut!((*peer).outgoing_commands),
            ];
            for node in lists.into_iter().flat_map(|list| walk(list)) {
                (*node.cast::<ENetOutgoingCommand>()).round_trip_timeout = TIMEOUT;
                enet_list_insert(self.end(), enet_list_remove(node));
            }
            (*peer).earliest_timeout = 0;
        }
    }

    /// How many commands are sent, and how many wait to be sent.
    pub fn counts(&mut self) -> [usize; 2] {
        unsafe {
            let peer = self.bench.peer;
            let [sent, reliable, others] = [
                addr_of_mut!((*peer).sent_reliable_commands),
                addr_of_mut!((*peer).outgoing_send_reliable_commands),
                addr_of_mut!((*peer).outgoing_commands),
            ]
            .map(|list| walk(list).len());
            [sent, reliable + others]
        }
    }

    /// Where a command joins the sent ones.
    unsafe fn end(&self) -> ENetListIterator {
        addr_of_mut!((*self.bench.peer).sent_reliable_commands.sentinel)
    }

    /// A new command of this number.
    unsafe fn made(&self, number: u16) -> *mut u8 {
        outgoing(&Outgoing {
            reliable: number,
            sent_time: SENT,
            timeout: TIMEOUT,
            length: 4,
            attempts: 1,
            packet: self.packet,
            byte: 134,
            number,
            kind: 6,
            fields: vec![4],
            ..Outgoing::default()
        })
    }
}

#[cfg(test)]
mod tests {
    use super::*;

    /// The numbers of the sent commands.
    fn sent(awaiting: &Awaiting) -> Vec<u16> {
        let nodes = unsafe { walk(addr_of_mut!((*awaiting.bench.peer).sent_reliable_commands)) };
        let number = |node: ENetListIterator| unsafe {
            (*node.cast::<ENetOutgoingCommand>()).reliable_sequence_number
        };
        nodes.into_iter().map(number).collect()
    }

    #[test]
    fn an_acknowledged_command_is_put_back_at_its_place() {
        for packet in [false, true] {
            let mut awaiting = Awaiting::new(5, packet);
            for number in [1, 3, 5, 3] {
                assert_eq!(awaiting.acknowledge(&Awaiting::make(number)), 0);
                assert_eq!(awaiting.counts(), [4, 0]);
                awaiting.put_back(number);
                assert_eq!(sent(&awaiting), [1, 2, 3, 4, 5]);
            }
            assert_eq!(awaiting.acknowledge(&Awaiting::make(6)), 0);
            assert_eq!(awaiting.counts(), [5, 0]);
        }
    }

    #[test]
    fn all_go_back_and_are_sent_again_in_their_order() {
        for packet in [false, true] {
            let mut awaiting = Awaiting::new(32, packet);
            for _ in 0..100 {
                assert_eq!((awaiting.check_early(), awaiting.counts()), (0, [32, 0]));
                assert_eq!((awaiting.check_late(), awaiting.counts()), (0, [0, 32]));
                awaiting.send_again();
                assert!(sent(&awaiting).into_iter().eq(1..=32));
            }
        }
    }
}
