//! Scripts in which two peers talk: the calls of one, and between them a network and a plain model of the other.

mod caller;
mod far;
mod network;
mod sequences;
mod start;

use std::io;

use crate::{output::Output, random::Random, sequence};
pub use network::Mood;
pub use sequences::Talk;
pub use start::Start;

/// The shortest of the sequences but the last, and the longest.
const SHORTEST: u64 = 200;
const LONGEST: u64 = 2_400;

/// A script of so many calls of ops 1 to 14 and 18, in sequences of the mood and the start that the seed says.
pub fn write(output: &mut Output, seed: u64, count: u64) -> io::Result<()> {
    let open = |output: &mut Output, random: &mut Random| {
        let calls = SHORTEST + random.below(LONGEST - SHORTEST);
        Ok((Talk::open(output, random, Mood::of(seed), Start::of(seed))?, calls))
    };
    sequence::write(output, seed, count, open, Talk::call)
}
