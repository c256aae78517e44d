//! A peer that lives: its host and itself are kept from call to call, with all that a record does not hold.

use std::ptr::addr_of_mut;

use super::{arrival::bytes, nodes::walk};
use crate::{record::Record, Bench};

impl Bench {
    /// A peer as a script has it at the start, by a host of this MTU. From here on every call on a record is made on it,
    /// as it is then, and the record that is handed in counts for nothing.
    pub fn living(mtu: u32) -> Self {
        let mut bench = Bench::new();
        bench.living = Some(unsafe { bench.load(&Record::fresh(mtu)) });
        bench
    }

    pub fn lives(&self) -> bool {
        self.living.is_some()
    }

    /// The record of a living peer as it is now.
    pub fn seen(&self) -> Option<Record> {
        self.living.clone().map(|mut nodes| unsafe { self.dump(&mut nodes) })
    }

    /// The bytes of the packet that a living peer's next receive hands out.
    pub fn next_bytes(&self) -> Option<Vec<u8>> {
        let dispatched = unsafe { walk(addr_of_mut!((*self.peer).dispatched_commands)) };
        let head = dispatched.first().filter(|_| self.lives())?;
        Some(unsafe { bytes(head.cast()) })
    }
}

#[cfg(test)]
mod tests {
    use super::*;
    use crate::{Arrival, Room};

    /// An unsequenced packet after a begin.
    fn connect_and_take(bench: &mut Bench) {
        let record = Record::zero();
        bench.begin(&record, 576, 1);
        bench.set_state(&record, 5);
        let room = Room { packet: 9, waiting: 9 };
        let arrival = Arrival { byte: 73, channel: 0, number: 0, group: 2, length: 0, rest: &[] };
        bench.arrive(&record, room, &arrival);
    }

    /// Whether the host's queue leads to the peer, and the peer's link on to itself.
    fn links(bench: &Bench) -> (bool, bool) {
        unsafe {
            let own = addr_of_mut!((*bench.peer).dispatch_list);
            ((*bench.host).dispatch_queue.sentinel.next == own, (*own).next == own)
        }
    }

    #[test]
    fn a_reset_leaves_the_peer_in_the_hosts_queue_and_the_next_packet_links_it_to_itself() {
        let mut bench = Bench::living(1_392);
        assert_eq!(links(&bench), (false, false));
        connect_and_take(&mut bench);
        assert_eq!(links(&bench), (true, false));
        let after = bench.reset(1_392, &Record::zero());
        assert_eq!((links(&bench), after.row()), ((true, false), Record::fresh(1_392).row()));
        connect_and_take(&mut bench);
        assert_eq!(links(&bench), (true, true));
    }
}
