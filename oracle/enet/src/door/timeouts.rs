//! The door to `enet_protocol_check_timeouts`.

use std::{mem::zeroed, ptr::null_mut};

use super::notice::Before;
use crate::{opened, record::Record, silent::Silent, Bench, ENetEvent, ENET_PEER_STATE_CONNECTED};

/// What the source does when it gives a peer up: what the check returned, and the event's type.
#[derive(Clone, Copy, Debug, PartialEq, Eq)]
pub struct GivenUp {
    pub returned: i32,
    pub event: u32,
}

impl Bench {
    /// Whether the source's check gave a sound record's peer up when the clock stood here, and the record after it;
    /// where it gave up, the record just before its notice.
    pub fn check_timeouts(&mut self, record: &Record, clock: u32) -> (bool, Record) {
        unsafe { self.call(record, |bench, _| bench.check_quietly(clock)) }
    }

    /// The peer's check; the notice, should it come, is undone.
    unsafe fn check_quietly(&mut self, clock: u32) -> bool {
        let before = Before::of(self);
        // The check asks for no state; only its notice does, which in state 5, with no event to fill in, resets nothing.
        (*self.peer).state = ENET_PEER_STATE_CONNECTED;
        let given_up = self.check(clock, null_mut()) != 0;
        if given_up {
            before.put_back(self);
        } else {
            (*self.peer).state = before.state;
        }
        given_up
    }

    /// The same in the record's own state, with an event to fill in and all that the source's notice does.
    pub fn give_up(&mut self, record: &Record, clock: u32) -> (GivenUp, Record) {
        let check = |bench: &mut Bench| unsafe {
            let mut event = zeroed();
            let returned = bench.check(clock, &mut event);
            GivenUp { returned, event: event.type_0 }
        };
        unsafe { self.call(record, |bench, _| check(bench)) }
    }

    unsafe fn check(&mut self, clock: u32, event: *mut ENetEvent<Silent>) -> i32 {
        (*self.host).service_time = clock;
        opened::check_timeouts(self.host, self.peer, event)
    }
}
