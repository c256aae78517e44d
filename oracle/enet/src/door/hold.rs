//! What the port adds to a reliable arrival: by hand a new node in the channel's list, which the source then dispatches.

use std::ptr::addr_of_mut;

use super::{load::incoming, nodes::walk};
use crate::{
    enet_list_insert,
    record::{Incoming, Record},
    Bench, ENetIncomingCommand,
};

impl Bench {
    /// A sound record that holds this packet at this place of its channel's list; a slot must be free for it.
    pub fn hold(&mut self, record: &Record, came: &Incoming, bytes: &[u8], place: usize) -> Record {
        assert_eq!(came.length as usize, bytes.len());
        let hold = |bench: &mut Bench| unsafe {
            let peer = bench.peer;
            let node: *mut ENetIncomingCommand = incoming(came).cast();
            if !bytes.is_empty() {
                (*(*node).packet).data.copy_from_nonoverlapping(bytes.as_ptr(), bytes.len());
            }
            let channel = (*peer).channels.add(came.channel.into());
            let list = addr_of_mut!((*channel).incoming_reliable_commands);
            let before = walk(list).get(place).copied();
            let before = before.unwrap_or(addr_of_mut!((*list).sentinel));
            enet_list_insert(before, node.cast());
            (*peer).total_waiting_data = (*peer).total_waiting_data.wrapping_add(bytes.len());
        };
        unsafe { self.call(record, |bench, _| hold(bench)).1 }
    }
}
