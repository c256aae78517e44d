//! A block as a sender cuts it.

use crate::{frame::Frame, ops::fragment::KIND, random::Random};

/// A block: its channel and its start, and how it is cut.
#[derive(Clone, Copy)]
pub struct Block {
    pub channel: u32,
    pub start: u16,
    pub total: u32,
    /// The most bytes of a piece.
    pub cut: u32,
}

impl Block {
    pub fn count(&self) -> u32 {
        self.total.div_ceil(self.cut)
    }

    /// Its pieces in their order, each in a datagram of its own.
    pub fn pieces(&self, random: &mut Random) -> Vec<Frame> {
        let bytes = random.bytes(self.total as usize);
        let pieces = bytes.chunks(self.cut as usize).zip(0..);
        pieces.map(|(bytes, piece)| self.piece(random, piece, piece * self.cut, bytes)).collect()
    }

    /// These bytes as a piece, somewhere in a datagram.
    pub fn piece(&self, random: &mut Random, piece: u32, offset: u32, bytes: &[u8]) -> Frame {
        let &Block { channel, start, total, .. } = self;
        let (count, length) = (self.count(), bytes.len() as u32);
        let number = start.wrapping_add(piece as u16);
        let (place, more) = (random.pick(&[0, 4, 24, 24]), random.pick(&[0, 0, 0, 5]));
        let mut datagram = random.bytes(place);
        datagram.extend(bytes);
        datagram.extend(random.bytes(more));
        let (byte, place) = (128 | u32::from(KIND), place as u32);
        let (number, start) = (number.into(), start.into());
        Frame {
            op: 18,
            numbers: vec![byte, channel, number, start, length, count, piece, total, offset, place],
            bytes: datagram,
        }
    }
}

#[cfg(test)]
mod tests {
    use super::*;

    #[test]
    fn a_block_is_cut_as_our_own_send_cuts_it() {
        let block = Block { channel: 2, start: 65_535, total: 1_100, cut: 576 - 28 };
        let pieces = block.pieces(&mut Random::new(1));
        let numbers: Vec<Vec<u32>> =
            pieces.iter().map(|piece| piece.numbers[1..9].to_vec()).collect();
        assert_eq!(
            numbers,
            [
                [2, 65_535, 65_535, 548, 3, 0, 1_100, 0],
                [2, 0, 65_535, 548, 3, 1, 1_100, 548],
                [2, 1, 65_535, 4, 3, 2, 1_100, 1_096],
            ]
        );
    }
}
