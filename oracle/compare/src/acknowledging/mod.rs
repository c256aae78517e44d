//! Scripts about acknowledgement, timeouts and the throttle: random sequences, and every input of a set.

mod acknowledgement;
mod layout;
mod refusals;
mod sequences;
mod throttle;
mod timeouts;

use std::io;

use enet::record::Record;

use crate::{
    build,
    frame::Frame,
    model::{Model, Settings},
    ops,
    output::Output,
    random::Random,
    records::{self, frame, set},
    sending::{self, rules, sets::Set},
};

pub use sequences::write;

/// The rules of ops 8, 9 and 14, each by its name and a few frames, with what document 01 replies.
pub const RULES: &str = include_str!("rules.txt");

/// The sets by their names on the command line.
pub const NAMES: [&str; 3] = ["acknowledgement", "timeouts", "throttle"];

/// A set by its name on the command line.
pub fn named(name: &str) -> Option<Set> {
    match name {
        "acknowledgement" => Some(acknowledgement::write),
        "timeouts" => Some(timeouts::write),
        "throttle" => Some(throttle::write),
        _ => None,
    }
}

/// What the repository stores of them: the rules, so many calls in sequences, and a thin slice of each set.
pub fn write_stored(output: &mut Output, seed: u64, count: u64) -> io::Result<()> {
    rules::write_text(output, RULES)?;
    sequences::write(output, seed, count)?;
    acknowledgement::write_slice(output)?;
    timeouts::write_slice(output)?;
    throttle::write_slice(output)
}

/// The settings of the start and a new record of two channels, of which few frames make each case's.
fn open(output: &mut Output) -> io::Result<()> {
    output.put(&set(&Settings::START))?;
    output.put(&frame(1, vec![]))?;
    records::make(output, &layout::record(&["", "", ""], layout::Asked { kind: 5, packet: false }))
}

/// Makes the record, of which only numbers and outgoing lists and slots may differ from what was made before, and the
/// call on it.
fn case(output: &mut Output, record: &Record, asked: &Frame) -> io::Result<()> {
    for frame in build::outgoing_frames(&output.model.record, record) {
        output.put(&frame)?;
    }
    output.put(asked)
}

/// A call around acknowledgement that suits the record, for sequences that keep no clock: of ops 8, 9 and 14,
/// and now and then of sending, without which there is nothing to acknowledge.
pub fn drawn(model: &Model, random: &mut Random) -> Frame {
    match random.below(16) {
        0..=5 => ops::acknowledgement::drawn(random, &model.record),
        6..=8 => ops::timeouts::drawn(random, &model.record),
        9..=10 => ops::throttle::drawn(random, &model.record),
        _ => sending::drawn(model, random),
    }
}

/// That this set meets each of these replies, in no more lines than this.
#[cfg(test)]
fn assert_meets(set: Set, replies: &[&str], most: usize) {
    let met = crate::met::replies(set);
    crate::met::assert_met(&met, 1, replies);
    let count: usize = met.values().sum();
    assert!(count <= most, "{count} lines");
}
