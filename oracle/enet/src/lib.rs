//! rusty_enet 0.4.1, compiled from its own unchanged files, and doors to its private functions.
//!
//! A door is a method of [`Bench`]: plain data in, plain data out, and the source's own code between.

// The source and the shims, as prepare/tree.rs laid them out; they expect to stand at the crate's root.
include!(concat!(env!("ENET_TREE"), "/root.rs"));

mod bench;
mod door;
pub mod record;
mod silent;

pub use bench::Bench;
pub use door::{
    acknowledge::{Acknowledged, Acknowledgement},
    arrival::{Arrival, Arrived, Room},
    awaiting::{Acknowledging, Awaiting},
    command::{limits, size, write, Read},
    overdue::{Carried, Case, Left, Overdue, Sent},
    pack::Packed,
    piece::{Piece, Pieced},
    receive::Received,
    receiver::{Datagram, Receiver, Taken},
    send::{Limits, Packet},
    throttle::Throttle,
    timed::{Aside, Disconnecting, Made, Sender},
    timeouts::GivenUp,
    window::{Verdict, Window},
};
