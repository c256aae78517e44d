//! Parameter blocks, which the gateway sends down: made so that door and judge can tell whether one is missing, doubled, out of order or changed.

use crate::reports::pattern;

/// The lengths that a run goes through in turn: one byte, a cell of the store, one byte more, and up to the longest that a block may be.
const LENGTHS: [usize; 5] = [1, 4_096, 4_097, 20_000, 32_768];
const CHANNELS: u32 = 2;
/// A block begins with its index, which is below this: a report begins with a letter.
const AT_MOST: u8 = 64;

/// A block as an end says that it came.
#[derive(Debug, Clone, Copy, PartialEq)]
pub struct Block {
    pub channel: u32,
    pub length: usize,
    pub hash: u32,
}

/// Block after block the channels take turns, and each channel has every length.
pub fn channel(index: u32) -> u32 {
    index % CHANNELS
}

/// The index, and a pattern of seed and index; the gateway makes the same.
pub fn bytes(seed: u32, index: u32) -> Vec<u8> {
    let mut bytes = vec![index as u8];
    let length = LENGTHS[index as usize % LENGTHS.len()];
    bytes.extend(pattern(seed, 'B', index).take(length - 1));
    bytes
}

/// SCRIPT.md's hash of a row of numbers, here of bytes.
pub fn hash(bytes: &[u8]) -> u32 {
    let add = |hash: u64, byte: &u8| (hash * 65_599 + u64::from(*byte)) % 4_294_967_291;
    bytes.iter().fold(0, add) as u32
}

pub fn block_of(channel: u32, bytes: &[u8]) -> Block {
    Block { channel, length: bytes.len(), hash: hash(bytes) }
}

/// The block with an index, made anew.
pub fn made(seed: u32, index: u32) -> Block {
    block_of(channel(index), &bytes(seed, index))
}

pub fn is_block(bytes: &[u8]) -> bool {
    bytes.first().is_some_and(|first| *first < AT_MOST)
}

/// How many bytes of a block that came are wrong; another length or channel than its own counts as one.
pub fn bytes_wrong(seed: u32, came: u32, got: &[u8]) -> usize {
    let index = u32::from(got.first().copied().unwrap_or(0));
    let right = bytes(seed, index);
    let differ = got.iter().zip(&right).filter(|(got, made)| got != made).count();
    differ + usize::from(got.len() != right.len()) + usize::from(came != channel(index))
}

/// What the door sends up for a block: H, the how many-th it was, from 0, its channel, its length and its hash.
pub fn answer(number: u32, block: Block) -> Vec<u8> {
    let mut bytes = vec![b'H'];
    bytes.extend(number.to_be_bytes());
    bytes.push(block.channel as u8);
    bytes.extend((block.length as u32).to_be_bytes());
    bytes.extend(block.hash.to_be_bytes());
    bytes
}

#[cfg(test)]
mod tests {
    use super::*;

    #[test]
    fn each_channel_has_every_length() {
        for channel in 0..CHANNELS {
            let mut lengths: Vec<usize> = (0..10)
                .map(|i| made(1, i))
                .filter(|b| b.channel == channel)
                .map(|b| b.length)
                .collect();
            lengths.sort();
            assert_eq!(lengths, LENGTHS);
        }
    }

    #[test]
    fn a_block_comes_right_and_is_told_from_a_report() {
        assert_eq!(bytes_wrong(9, 0, &bytes(9, 4)), 0);
        assert!(is_block(&bytes(9, 0)) && is_block(&bytes(9, 63)));
        assert!(!is_block(b"R") && !is_block(b"U") && !is_block(b""));
    }

    #[test]
    fn a_changed_byte_a_cut_end_and_another_channel_are_seen() {
        let mut changed = bytes(9, 4);
        changed[32_767] ^= 1;
        assert_eq!(bytes_wrong(9, 0, &changed), 1);
        assert_ne!(hash(&changed), made(9, 4).hash);
        assert_eq!(bytes_wrong(9, 0, &bytes(9, 4)[..32_767]), 1);
        assert_eq!(bytes_wrong(9, 1, &bytes(9, 4)), 1);
        assert!(bytes_wrong(8, 0, &bytes(9, 4)) > 1);
    }

    #[test]
    fn the_hash_is_the_scripts() {
        assert_eq!(hash(&[1, 2]), 65_601);
        assert_eq!(hash(&[1, 0, 0]), (65_599u64 * 65_599 % 4_294_967_291) as u32);
    }

    #[test]
    fn an_answer_has_number_channel_length_and_hash() {
        let block = Block { channel: 1, length: 4_097, hash: 258 };
        assert_eq!(answer(3, block), [b'H', 0, 0, 0, 3, 1, 0, 0, 16, 1, 0, 0, 1, 2]);
    }
}
