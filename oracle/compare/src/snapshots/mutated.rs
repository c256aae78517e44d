//! Random snapshots that something happened to, restored.

use std::io;

use super::{
    draw,
    laying::{carry, open, restore, stores, write_all},
};
use crate::{
    output::Output,
    random::Random,
    records::{self, frame, harm},
};

/// How many restores there are of one snapshot, and between two new records.
const OF_ONE: u64 = 8;
const APART: u64 = 64;

/// A script of so many restores of snapshots with flipped bits, other numbers, cuts, doubled ends and noise.
pub fn write(output: &mut Output, seed: u64, count: u64) -> io::Result<()> {
    let random = &mut Random::new(seed);
    open(output)?;
    let mut base = Vec::new();
    for turn in 0..count {
        if turn % APART == 0 {
            renew(output, random)?;
        }
        if turn % OF_ONE == 0 {
            base = draw::base(random);
        }
        let bytes = draw::mutated(random, &base);
        let line = carry(output, &bytes)?;
        if line.starts_with("34 0 ") {
            output.put(&write_all())?;
            look(output, random)?;
        } else if random.once_in(32) {
            look(output, random)?;
            output.put(&restore(bytes.len()))?;
        }
    }
    Ok(())
}

/// Another record, which a refused restore must leave, now and then a damaged one.
fn renew(output: &mut Output, random: &mut Random) -> io::Result<()> {
    if random.once_in(8) {
        let record = harm::any(random);
        return records::make(output, &record);
    }
    let record = draw::any(random);
    let bytes = draw::snapshot(random, &record);
    carry(output, &bytes).map(drop)
}

/// Now and then both stores, and the record.
fn look(output: &mut Output, random: &mut Random) -> io::Result<()> {
    if random.once_in(6) {
        stores(output)?;
    }
    if random.once_in(12) {
        output.put(&frame(15, vec![]))?;
    }
    Ok(())
}

#[cfg(test)]
mod tests {
    use super::*;
    use crate::met::{assert_met, replies};

    #[test]
    fn every_reply_is_met() {
        let met = replies(|output| write(output, 1, 4_000));
        assert_met(&met, 100, &["34 0", "34 13", "34 15"]);
        // What was restored is written: the same bytes, so never refused.
        assert!(met.keys().all(|reply| !reply.starts_with("33") || reply.starts_with("33 0 ")));
    }
}
