//! The door to `enet_protocol_check_timeouts` for sent commands that stand in no record: as many as there are, each part of
//! a turn by itself.

use std::{
    alloc::Layout,
    ptr::{addr_of_mut, null_mut},
};

use super::{dump, load::outgoing, nodes::walk};
use crate::{
    enet_free, enet_list_insert, enet_list_remove, opened, record::Outgoing, Bench, ENetList,
    ENetListIterator, ENetOutgoingCommand,
};

/// A sent command, as far as the check looks at it.
#[derive(Clone, Copy, Debug, Default, PartialEq, Eq)]
pub struct Sent {
    pub time: u32,
    pub timeout: u32,
    pub attempts: u16,
    pub length: u16,
    pub packet: bool,
}

/// The peer's numbers that the check writes.
#[derive(Clone, Copy, Debug, Default, PartialEq, Eq)]
pub struct Carried {
    pub earliest: u32,
    pub next: u32,
    pub lost: u32,
    pub transit: u32,
}

/// What a check is made on.
#[derive(Clone, Debug, Default)]
pub struct Case {
    pub sent: Vec<Sent>,
    /// How many wait in outgoing and in send-reliable at entry.
    pub waiting: [usize; 2],
    pub carried: Carried,
    pub limit: u32,
    pub minimum: u32,
    pub maximum: u32,
    pub clock: u32,
}

/// What a check left: every sent command at its place of the run, and which places each list names, in its order. What
/// waited at entry counts on from the run's length, outgoing first.
#[derive(Clone, Debug, PartialEq, Eq)]
pub struct Left {
    pub carried: Carried,
    pub commands: Vec<Sent>,
    pub sent: Vec<usize>,
    pub outgoing: Vec<usize>,
    pub send_reliable: Vec<usize>,
}

/// A connected peer that a case is laid out in.
#[derive(Default)]
pub struct Overdue {
    bench: Bench,
    nodes: Vec<ENetListIterator>,
    /// How many of the nodes were sent.
    run: usize,
    clock: u32,
}

impl Overdue {
    /// Lays the case out, whatever was there.
    pub fn load(&mut self, case: &Case) {
        self.bench.renew();
        self.nodes.clear();
        (self.run, self.clock) = (case.sent.len(), case.clock);
        unsafe {
            let peer = self.bench.peer;
            // Its own CONNECT.
            let connect = enet_list_remove((*peer).outgoing_commands.sentinel.next);
            enet_free(connect, Layout::new::<ENetOutgoingCommand>());
            (*peer).earliest_timeout = case.carried.earliest;
            (*peer).next_timeout = case.carried.next;
            (*peer).packets_lost = case.carried.lost;
            (*peer).reliable_data_in_transit = case.carried.transit;
            (*peer).timeout_limit = case.limit;
            (*peer).timeout_minimum = case.minimum;
            (*peer).timeout_maximum = case.maximum;
            let [sent, others, reliable] = self.lists();
            for command in &case.sent {
                self.put(sent, *command);
            }
            for (list, count) in [others, reliable].into_iter().zip(case.waiting) {
                for _ in 0..count {
                    self.put(list, Sent::default());
                }
            }
        }
    }

    /// The source's check and nothing else: whether it gave the peer up. In state 5 with no event its notice writes only
    /// the state, the flags and the event data.
    pub fn check(&mut self) -> bool {
        let (host, peer) = (self.bench.host, self.bench.peer);
        unsafe {
            (*host).service_time = self.clock;
            opened::check_timeouts(host, peer, null_mut()) != 0
        }
    }

    pub fn left(&self) -> Left {
        unsafe {
            let peer = self.bench.peer;
            let [sent, outgoing, send_reliable] = self.lists().map(|list| self.places(list));
            Left {
                carried: Carried {
                    earliest: (*peer).earliest_timeout,
                    next: (*peer).next_timeout,
                    lost: (*peer).packets_lost,
                    transit: (*peer).reliable_data_in_transit,
                },
                commands: self.nodes[..self.run].iter().map(|node| command(*node)).collect(),
                sent,
                outgoing,
                send_reliable,
            }
        }
    }

    unsafe fn lists(&self) -> [*mut ENetList; 3] {
        let peer = self.bench.peer;
        [
            addr_of_mut!((*peer).sent_reliable_commands),
            addr_of_mut!((*peer).outgoing_commands),
            addr_of_mut!((*peer).outgoing_send_reliable_commands),
        ]
    }

    /// A new node at the list's end.
    unsafe fn put(&mut self, list: *mut ENetList, sent: Sent) {
        let made = outgoing(&Outgoing {
            sent_time: sent.time,
            timeout: sent.timeout,
            length: sent.length,
            attempts: sent.attempts,
            packet: sent.packet,
            byte: 134,
            kind: 6,
            fields: vec![sent.length.into()],
            ..Outgoing::default()
        });
        self.nodes.push(enet_list_insert(addr_of_mut!((*list).sentinel), made));
    }

    unsafe fn places(&self, list: *mut ENetList) -> Vec<usize> {
        let place = |node: ENetListIterator| self.nodes.iter().position(|there| *there == node);
        walk(list).into_iter().map(|node| place(node).expect("it was put there")).collect()
    }
}

unsafe fn command(node: ENetListIterator) -> Sent {
    let Outgoing { sent_time, timeout, attempts, length, packet, .. } = dump::outgoing(node.cast());
    Sent { time: sent_time, timeout, attempts, length, packet }
}

#[cfg(test)]
mod tests {
    use super::*;

    const DUE: Sent = Sent { time: 1_000, timeout: 500, attempts: 1, length: 4, packet: true };

    fn case(sent: Vec<Sent>) -> Case {
        let (limit, minimum, maximum) = (32, 5_000, 30_000);
        Case { sent, waiting: [1, 1], limit, minimum, maximum, clock: 1_500, ..Case::default() }
    }

    #[test]
    fn what_is_due_goes_back_before_what_waits() {
        let mut overdue = Overdue::default();
        let later = Sent { timeout: 501, ..DUE };
        let bare = Sent { packet: false, ..DUE };
        overdue.load(&case(vec![DUE, bare, later, DUE]));
        assert!(!overdue.check());
        let left = overdue.left();
        assert_eq!(
            [left.sent, left.outgoing, left.send_reliable],
            [vec![2], vec![1, 4], vec![0, 3, 5]]
        );
        let Carried { earliest, next, lost, transit } = left.carried;
        assert_eq!([earliest, next, lost, transit], [1_000, 1_501, 3, 8_u32.wrapping_neg()]);
        assert_eq!(
            left.commands.iter().map(|sent| sent.timeout).collect::<Vec<_>>(),
            [1_000, 1_000, 501, 1_000]
        );
    }

    #[test]
    fn a_peer_that_was_given_up_is_laid_out_anew() {
        let mut overdue = Overdue::default();
        for _ in 0..3 {
            overdue.load(&Case { maximum: 500, ..case(vec![DUE; 40]) });
            assert!(overdue.check());
            assert_eq!(overdue.left().sent.len(), 40);
            overdue.load(&case(vec![]));
            assert!(!overdue.check());
            assert_eq!(overdue.left().carried, Carried::default());
        }
    }
}
