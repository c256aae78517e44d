//! The places of a record's single numbers: those of op 20, in document 01's order.

pub const OUTGOING_PEER_ID: usize = 0;
pub const INCOMING_PEER_ID: usize = 1;
pub const OUTGOING_SESSION: usize = 3;
pub const INCOMING_SESSION: usize = 4;
pub const STATE: usize = 5;
pub const CHANNEL_COUNT: usize = 6;
pub const OUTGOING_TOTAL: usize = 12;
pub const LAST_RECEIVE: usize = 14;
pub const NEXT_TIMEOUT: usize = 15;
pub const EARLIEST_TIMEOUT: usize = 16;
pub const PACKETS_SENT: usize = 18;
pub const PACKETS_LOST: usize = 19;
pub const THROTTLE: usize = 22;
pub const THROTTLE_LIMIT: usize = 23;
pub const THROTTLE_COUNTER: usize = 24;
pub const THROTTLE_EPOCH: usize = 25;
pub const THROTTLE_ACCELERATION: usize = 26;
pub const THROTTLE_DECELERATION: usize = 27;
pub const THROTTLE_INTERVAL: usize = 28;
pub const PING_INTERVAL: usize = 29;
pub const TIMEOUT_LIMIT: usize = 30;
pub const TIMEOUT_MINIMUM: usize = 31;
pub const TIMEOUT_MAXIMUM: usize = 32;
pub const LAST_ROUND_TRIP: usize = 33;
pub const LOWEST_ROUND_TRIP: usize = 34;
pub const LAST_VARIANCE: usize = 35;
pub const HIGHEST_VARIANCE: usize = 36;
pub const ROUND_TRIP: usize = 37;
pub const ROUND_TRIP_VARIANCE: usize = 38;
pub const MTU: usize = 39;
pub const WINDOW_SIZE: usize = 40;
pub const IN_TRANSIT: usize = 41;
pub const RELIABLE_NUMBER: usize = 42;
pub const FLAGS: usize = 43;
pub const RESERVED: usize = 44;
pub const INCOMING_GROUP: usize = 45;
pub const OUTGOING_GROUP: usize = 46;
pub const EVENT_DATA: usize = 47;
pub const WAITING: usize = 48;
pub const HOST_COUNT: usize = 49;

/// How many places there are.
pub const ALL: usize = 50;

/// The largest number that fits the type at this place.
pub fn limit(place: usize) -> u32 {
    match place {
        OUTGOING_SESSION | INCOMING_SESSION => u8::MAX.into(),
        OUTGOING_PEER_ID | INCOMING_PEER_ID | RELIABLE_NUMBER..=OUTGOING_GROUP => u16::MAX.into(),
        _ => u32::MAX,
    }
}
