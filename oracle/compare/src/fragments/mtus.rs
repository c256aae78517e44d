//! A block cut at every MTU, with and without a checksum, as our own send cuts it.

use std::io;

use super::cut::Block;
use crate::{
    arriving::start,
    ops::{send, store::whole_second},
    output::Output,
    random::Random,
    records::frame,
};

/// The seed of bytes, totals and orders.
const SEED: u64 = 1;

/// The MTUs of document 01.
const MTUS: std::ops::RangeInclusive<u32> = 576..=4_096;

pub fn write(output: &mut Output) -> io::Result<()> {
    let random = &mut Random::new(SEED);
    start(output)?;
    for mtu in MTUS {
        output.put(&frame(1, vec![]))?;
        output.put(&frame(2, vec![mtu, 1]))?;
        output.put(&frame(3, vec![5]))?;
        let plain = arrive(output, random, send::fragment(mtu, false), 1)?;
        arrive(output, random, send::fragment(mtu, true), 1 + plain)?;
    }
    Ok(())
}

/// Two to four pieces in any order, one of them twice, then the block taken out and looked at; how many numbers it took.
fn arrive(output: &mut Output, random: &mut Random, cut: u32, start: u16) -> io::Result<u16> {
    let total = cut + 1 + random.below(u64::from(3 * cut)) as u32;
    let block = Block { channel: 0, start, total, cut };
    let pieces = block.pieces(random);
    let again = random.below(pieces.len() as u64) as usize;
    for place in random.shuffled(pieces.len()) {
        output.put(&pieces[place])?;
        if place == again {
            output.put(&pieces[place])?;
        }
    }
    output.put(&frame(13, vec![]))?;
    output.put(&whole_second())?;
    Ok(block.count() as u16)
}

#[cfg(test)]
mod tests {
    use super::*;
    use crate::met::replies;

    #[test]
    fn every_block_comes_out() {
        let met = replies(write);
        let blocks = 2 * MTUS.count();
        let times = |reply: &str| met.get(reply).copied().unwrap_or(0);
        assert_eq!((times("13 0 2"), times("18 0 0")), (blocks, blocks));
    }
}
