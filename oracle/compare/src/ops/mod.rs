//! The ops of SCRIPT.md in groups: each makes frames and says what the oracle answers.

pub mod acknowledgement;
pub mod arrival;
mod begin;
mod bytes;
pub mod cell;
mod channel;
mod dispatch;
mod distance;
pub mod fragment;
pub mod incoming;
mod laid;
mod lay;
mod number;
pub mod outgoing;
mod ping;
mod read;
mod receive;
pub mod reliable;
pub mod reset;
mod restore;
mod row;
pub mod send;
mod settings;
pub mod setup;
mod snapshot;
mod state;
pub mod step;
pub mod store;
pub mod throttle;
pub mod timeouts;
mod unknown;
pub mod unsequenced;
mod write;

use crate::{frame::Frame, model::Model, random::Random};

pub struct Group {
    /// The name on the command line: the op, where it is a single one.
    pub name: &'static str,
    /// How often it is drawn, against the others.
    pub weight: u64,
    /// The group's frame for this turn.
    pub frame: fn(&mut Random, turn: u64) -> Frame,
    /// The line that must answer the frame.
    pub line: fn(&mut Model, &Frame) -> String,
}

/// The groups that take part if none is named: stored scripts rely on them and on their order.
pub const GROUPS: &[Group] =
    &[settings::GROUP, read::GROUP, write::GROUP, distance::GROUP, unknown::GROUP];

/// The groups that take part only if they are named.
pub const MORE: &[Group] = &[
    reset::GROUP,
    begin::GROUP,
    state::GROUP,
    ping::GROUP,
    send::GROUP,
    setup::GROUP,
    step::GROUP,
    acknowledgement::GROUP,
    timeouts::GROUP,
    unsequenced::GROUP,
    reliable::GROUP,
    dispatch::GROUP,
    receive::GROUP,
    throttle::GROUP,
    fragment::GROUP,
    row::GROUP,
    store::GROUP,
    bytes::GROUP,
    number::GROUP,
    cell::GROUP,
    channel::GROUP,
    outgoing::GROUP,
    incoming::GROUP,
];

/// C-12's groups, which take part likewise. A model answers them only if it is told to, since replay does not yet.
pub const SNAPSHOTS: &[Group] = &[snapshot::GROUP, restore::GROUP, lay::GROUP, laid::GROUP];

/// The group of this name.
pub fn named(name: &str) -> Option<&'static Group> {
    GROUPS.iter().chain(MORE).chain(SNAPSHOTS).find(|group| group.name == name)
}

/// Whether it is one of C-12's.
pub fn is_snapshots(group: &Group) -> bool {
    SNAPSHOTS.iter().any(|other| other.name == group.name)
}

/// Makes the frame's call on the model and answers its line.
pub fn answer(model: &mut Model, frame: &Frame) -> String {
    match named(&frame.op.to_string()) {
        Some(group) if model.snapshots || !is_snapshots(group) => (group.line)(model, frame),
        _ => frame.unknown(),
    }
}
