//! The door to the distance of two times, which the source only has inside its timeout check.

use std::ptr::{addr_of_mut, null_mut};

use crate::{
    bench::is_empty, enet_list_insert, enet_list_remove, opened, Bench, ENetOutgoingCommand,
};

impl Bench {
    /// The distance of the clock a and the sent time b: the largest timeout that has then run out.
    pub fn distance(&mut self, a: u32, b: u32) -> u32 {
        self.renew();
        unsafe {
            (*self.host).service_time = a;
            // Nothing is given up: no distance reaches this maximum, and one attempt not this limit.
            (*self.peer).timeout_maximum = u32::MAX;
            (*self.peer).timeout_limit = u32::MAX;
            let command: *mut ENetOutgoingCommand =
                (*self.peer).outgoing_commands.sentinel.next.cast();
            (*command).sent_time = b;
            (*command).send_attempts = 1;

            // A timeout of 0 has always run out; one of 2^32 could not.
            let (mut out, mut running) = (0, 1 << 32);
            while running - out > 1 {
                let middle: u64 = (out + running) / 2;
                (*command).round_trip_timeout = middle as u32;
                if self.runs_out(command) {
                    out = middle;
                } else {
                    running = middle;
                }
            }
            out as u32
        }
    }

    /// Whether the check takes the command out of the sent list, of which it is all.
    unsafe fn runs_out(&mut self, command: *mut ENetOutgoingCommand) -> bool {
        let sent = addr_of_mut!((*self.peer).sent_reliable_commands);
        enet_list_insert(addr_of_mut!((*sent).sentinel), enet_list_remove(command.cast()));
        (*self.peer).earliest_timeout = 0;
        let given_up = opened::check_timeouts(self.host, self.peer, null_mut());
        assert_eq!(given_up, 0);
        is_empty(sent)
    }
}
