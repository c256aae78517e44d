//! The door to `enet_peer_throttle`.

use crate::{enet_peer_throttle, record::Record, Bench};

/// The six numbers of the peer that the throttle reads; it changes the value alone. As C lays them out, so that a host can
/// lend them.
#[repr(C)]
#[derive(Clone, Copy, Debug, PartialEq, Eq)]
pub struct Throttle {
    pub value: u32,
    pub limit: u32,
    pub acceleration: u32,
    pub deceleration: u32,
    pub last: u32,
    pub variance: u32,
}

impl Bench {
    /// The numbers after a round trip of this length, and what the source returned.
    pub fn throttle(&mut self, numbers: Throttle, sample: u32) -> (Throttle, i32) {
        // Safe: the peer lives as long as the bench, and nobody else holds it.
        let peer = unsafe { &mut *self.peer };
        peer.packet_throttle = numbers.value;
        peer.packet_throttle_limit = numbers.limit;
        peer.packet_throttle_acceleration = numbers.acceleration;
        peer.packet_throttle_deceleration = numbers.deceleration;
        peer.last_round_trip_time = numbers.last;
        peer.last_round_trip_time_variance = numbers.variance;
        let returned = unsafe { enet_peer_throttle(peer, sample) };
        let after = Throttle {
            value: peer.packet_throttle,
            limit: peer.packet_throttle_limit,
            acceleration: peer.packet_throttle_acceleration,
            deceleration: peer.packet_throttle_deceleration,
            last: peer.last_round_trip_time,
            variance: peer.last_round_trip_time_variance,
        };
        (after, returned)
    }
    /// What the source returned for a round trip of this length on a sound record, and the record after it.
    pub fn throttled(&mut self, record: &Record, sample: u32) -> (i32, Record) {
        let throttle = |bench: &mut Bench| unsafe { enet_peer_throttle(bench.peer, sample) };
        unsafe { self.call(record, |bench, _| throttle(bench)) }
    }
}
