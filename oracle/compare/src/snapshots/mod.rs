//! C-12's snapshot: a writer and a reader of the oracle's own, and scripts about them.

mod bytes;
mod cuts;
mod damage;
mod draw;
mod groups;
mod laying;
mod lists;
mod mutated;
mod order;
pub mod reader;
mod sequences;
mod shapes;
#[cfg(test)]
mod tests;
mod widths;
pub mod writer;

use std::io;

use crate::{
    output::Output,
    sending::{rules, sets::Set},
};

pub use mutated::write as write_mutated;
pub use sequences::write_drawn as write;

/// The rules of ops 33 to 36, each by its name and a few frames, with what C-12 replies.
pub const RULES: &str = include_str!("rules.txt");

/// The sets by their names on the command line.
pub const NAMES: [&str; 8] = [
    "snapshot",
    "snapshot-cut",
    "snapshot-width",
    "snapshot-list",
    "snapshot-byte",
    "snapshot-damage",
    "snapshot-order",
    "snapshot-slice",
];

/// A set by its name on the command line.
pub fn named(name: &str) -> Option<Set> {
    match name {
        "snapshot" => Some(shapes::write_set),
        "snapshot-cut" => Some(cuts::write_set),
        "snapshot-width" => Some(widths::write_set),
        "snapshot-list" => Some(lists::write_set),
        "snapshot-byte" => Some(bytes::write_set),
        "snapshot-damage" => Some(damage::write_set),
        "snapshot-order" => Some(order::write_set),
        "snapshot-slice" => Some(|output| write_stored(output, 19, 300)),
        _ => None,
    }
}

/// What the repository is to store of them once replay has the ops: the rules, so many calls in sequences and restores of
/// spoilt snapshots, and a thin slice of each set.
pub fn write_stored(output: &mut Output, seed: u64, count: u64) -> io::Result<()> {
    output.model.snapshots = true;
    rules::write_text(output, RULES)?;
    sequences::write_drawn(output, seed, count)?;
    mutated::write(output, seed, count / 3)?;
    shapes::write_slice(output)?;
    cuts::write_slice(output)?;
    widths::write_slice(output)?;
    lists::write_slice(output)?;
    bytes::write_slice(output)?;
    damage::write_slice(output)?;
    order::write_slice(output)
}
