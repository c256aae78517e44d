//! Which of the source's nodes stands for which slot: the source has no slots.

use std::{
    cmp::Reverse,
    ptr::{addr_of_mut, null_mut},
};

use crate::{
    record::{INCOMING, OUTGOING},
    silent::Silent,
    Bench, ENetList, ENetListIterator, ENetOutgoingCommand, ENetPeer,
};

/// The source's node for each slot, null for a free one.
#[derive(Clone)]
pub(crate) struct Nodes {
    pub(crate) outgoing: [ENetListIterator; OUTGOING],
    pub(crate) incoming: [ENetListIterator; INCOMING],
}

impl Nodes {
    /// Every slot free.
    pub(crate) fn none() -> Self {
        Nodes { outgoing: [null_mut(); OUTGOING], incoming: [null_mut(); INCOMING] }
    }

    /// After a call: what left every list frees its slot, what stayed keeps it, and what is new takes the lowest free
    /// one. No call may free a node and make another, which could lie at the same place.
    pub(crate) unsafe fn follow(&mut self, bench: &Bench) {
        // The commands of one call were queued in the order in which they were set up.
        let queued = (*bench.host).total_queued;
        let age = |node: &ENetListIterator| queued.wrapping_sub(queue_time(*node));
        let mut outgoing = all(outgoing_lists(bench.peer).into());
        outgoing.sort_by_key(|node| Reverse(age(node)));
        settle(&mut self.outgoing, &outgoing);
        settle(&mut self.incoming, &all(incoming_lists(bench.peer)));
    }
}

fn settle(slots: &mut [ENetListIterator], nodes: &[ENetListIterator]) {
    for slot in slots.iter_mut().filter(|slot| !nodes.contains(slot)) {
        *slot = null_mut();
    }
    for node in nodes {
        if !slots.contains(node) {
            let free = slots.iter().position(|slot| slot.is_null()).expect("the slots suffice");
            slots[free] = *node;
        }
    }
}

/// The lists that share the outgoing slots, in the record's order.
pub(crate) unsafe fn outgoing_lists(peer: *mut ENetPeer<Silent>) -> [*mut ENetList; 3] {
    [
        addr_of_mut!((*peer).sent_reliable_commands),
        addr_of_mut!((*peer).outgoing_send_reliable_commands),
        addr_of_mut!((*peer).outgoing_commands),
    ]
}

/// The lists that share the incoming slots, in the record's order.
pub(crate) unsafe fn incoming_lists(peer: *mut ENetPeer<Silent>) -> Vec<*mut ENetList> {
    let mut lists = vec![addr_of_mut!((*peer).dispatched_commands)];
    for place in 0..(*peer).channel_count {
        lists.push(addr_of_mut!((*(*peer).channels.add(place)).incoming_reliable_commands));
    }
    lists
}

unsafe fn all(lists: Vec<*mut ENetList>) -> Vec<ENetListIterator> {
    lists.into_iter().flat_map(|list| walk(list)).collect()
}

/// The nodes of a list from its head.
pub(crate) unsafe fn walk(list: *mut ENetList) -> Vec<ENetListIterator> {
    let mut nodes = Vec::new();
    let mut node = (*list).sentinel.next;
    while node != addr_of_mut!((*list).sentinel) {
        nodes.push(node);
        node = (*node).next;
    }
    nodes
}

unsafe fn queue_time(node: ENetListIterator) -> u32 {
    (*node.cast::<ENetOutgoingCommand>()).queue_time
}
