//! Scripts about blocks that come in pieces: rules, random sequences, and every input of a set.

pub mod cut;
mod mtus;
mod sequences;
mod sets;

use std::io;

use crate::{
    output::Output,
    sending::{rules, sets::Set},
};

pub use sequences::write;

/// The rules of op 18, each by its name and a few frames, with what C-11 replies.
pub const RULES: &str = include_str!("rules.txt");

/// The sets by their names on the command line.
pub const NAMES: [&str; 2] = ["fragment", "mtu"];

/// A set by its name on the command line.
pub fn named(name: &str) -> Option<Set> {
    match name {
        "fragment" => Some(sets::write),
        "mtu" => Some(mtus::write),
        _ => None,
    }
}

/// What the repository stores of them: the rules, so many calls in sequences, and a thin slice of the set.
pub fn write_stored(output: &mut Output, seed: u64, count: u64) -> io::Result<()> {
    rules::write_text(output, RULES)?;
    sequences::write(output, seed, count)?;
    sets::write_slice(output)
}

#[cfg(test)]
mod tests {
    use super::*;
    use crate::met::{assert_met, replies};

    #[test]
    fn what_is_stored_meets_every_reply() {
        let met = replies(|output| write_stored(output, 17, 300));
        let replies = [
            "18 0 0", "18 0 1", "18 6", "18 7", "18 8", "18 9", "18 11", "18 13", "18 14",
            "18 bad", "13 0 2", "16 bad", "17 bad", "20 bad", "0 bad",
        ];
        assert_met(&met, 1, &replies);
    }
}
