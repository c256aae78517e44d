//! The live door: a host around the proved link (replay, driven through a pipe), against a gateway on stock ENet.
//!
//! The door decides no peer rule. What it owns is in docs/HOST.md, in the order in which a datagram meets it.

#![forbid(unsafe_code)]

pub mod arrivals;
pub mod blocks;
pub mod clock;
pub mod datagram;
pub mod door;
pub mod fates;
pub mod frames;
pub mod handshake;
pub mod incoming;
pub mod judge;
pub mod link;
pub mod logs;
pub mod look;
pub mod outbox;
pub mod picture;
pub mod random;
pub mod reports;
pub mod sending;
pub mod story;
pub mod words;

/// What stops a program: a line for its reader.
pub type Fallible<T> = Result<T, String>;

/// An error of the machine in words.
pub fn told<E: std::fmt::Display>(what: &str) -> impl FnOnce(E) -> String + '_ {
    move |error| format!("{what}: {error}")
}
