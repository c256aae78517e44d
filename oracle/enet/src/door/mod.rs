//! The doors, one file for each function or piece of the source that they lead to.

pub(crate) mod acknowledge;
pub(crate) mod arrival;
pub(crate) mod awaiting;
mod begin;
mod call;
pub(crate) mod command;
mod disconnect;
mod dispatch;
mod distance;
mod dump;
mod fields;
mod hold;
mod living;
mod load;
mod nodes;
mod notice;
mod numbers;
pub(crate) mod overdue;
pub(crate) mod pack;
pub(crate) mod piece;
mod ping;
pub(crate) mod receive;
pub(crate) mod receiver;
mod reset;
pub(crate) mod send;
mod setup;
mod state;
mod step;
pub(crate) mod throttle;
pub(crate) mod timed;
pub(crate) mod timeouts;
pub(crate) mod window;

pub(crate) use nodes::Nodes;
