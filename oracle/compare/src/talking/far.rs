//! The far side as a plain model: it sends packets with running numbers, now and then a block in pieces, the reliable ones
//! again until they are answered, and acknowledges what asks for it.

use enet::record::{place, Record, CHANNELS};

use crate::{fragments::cut::Block, frame::Frame, ops::reliable::LAST, random::Random};

/// How many of its reliable packets may wait for an answer, and when one is sent again.
const WINDOW: usize = 10;
const AGAIN: u64 = 400;

/// What comes to the far side.
#[derive(Clone)]
pub enum Came {
    /// A command that asks for acknowledgement.
    Command { channel: u32, number: u32, sent_time: u32 },
    /// The answer to its own reliable packet.
    Answer { channel: u32, number: u32 },
}

pub struct Far {
    lasts: [u16; CHANNELS],
    group: u16,
    /// Reliable packets without an answer, each with the time at which it was last sent.
    waiting: Vec<(u64, Frame)>,
}

impl Far {
    /// One that goes on where the record has come to.
    pub fn facing(record: &Record) -> Self {
        let lasts = std::array::from_fn(|channel| record.channels[channel].numbers[LAST]);
        let group = record.numbers[place::INCOMING_GROUP] as u16;
        Far { lasts, group, waiting: Vec::new() }
    }

    /// What it sends back, if anything.
    pub fn takes(&mut self, came: Came) -> Option<Frame> {
        match came {
            Came::Command { channel, number, sent_time } => {
                // The clock of the arrival comes last, once it is known.
                Some(Frame {
                    op: 8,
                    numbers: vec![channel, number, sent_time & 0xFFFF],
                    ..Frame::default()
                })
            }
            Came::Answer { channel, number } => {
                let asked = |frame: &Frame| (frame.number(1), frame.number(2));
                self.waiting.retain(|(_, frame)| asked(frame) != (channel, number));
                None
            }
        }
    }

    /// A packet to one of so many channels, mostly no longer than what the other side takes, or the pieces of a block.
    pub fn sends(
        &mut self,
        random: &mut Random,
        channels: u32,
        longest: u32,
        now: u64,
    ) -> Vec<Frame> {
        let channel = random.below(channels.clamp(1, CHANNELS as u32).into()) as u32;
        if self.waiting.len() >= WINDOW || random.once_in(3) {
            return vec![self.unsequenced(random, channel, longest)];
        }
        let frames = match random.once_in(8) {
            true => self.block(random, channel, longest),
            false => vec![self.reliable(random, channel, longest)],
        };
        self.waiting.extend(frames.iter().map(|frame| (now, frame.clone())));
        frames
    }

    /// The reliable packets whose answer is overdue.
    pub fn again(&mut self, now: u64) -> Vec<Frame> {
        let mut again = Vec::new();
        for (sent, frame) in self.waiting.iter_mut().filter(|(sent, _)| sent + AGAIN <= now) {
            *sent = now;
            again.push(frame.clone());
        }
        again
    }

    /// A longer one would be sent again for ever, and none after it would come out.
    fn reliable(&mut self, random: &mut Random, channel: u32, longest: u32) -> Frame {
        let last = &mut self.lasts[channel as usize];
        *last = last.wrapping_add(1);
        let numbers = vec![128 | 6, channel, (*last).into()];
        let length = length(random, longest);
        with_payload(random, length, Frame { op: 11, numbers, ..Frame::default() })
    }

    /// A block of a few pieces, each of which takes a number, mostly far shorter than its own MTU would allow.
    fn block(&mut self, random: &mut Random, channel: u32, longest: u32) -> Vec<Frame> {
        let cut = random.pick(&[548, 20, 60, 60]).min(longest / 4);
        let total = cut * (1 + random.below(3) as u32) + random.below(cut.into()) as u32;
        let last = &mut self.lasts[channel as usize];
        let block = Block { channel, start: last.wrapping_add(1), total, cut };
        *last = last.wrapping_add(block.count() as u16);
        block.pieces(random)
    }

    /// Its group is the next one; now and then all of some windows before it went to others or were lost.
    fn unsequenced(&mut self, random: &mut Random, channel: u32, longest: u32) -> Frame {
        let lost = match random.below(96) {
            0 => random.below(40_000) as u16,
            1..=4 => random.below(4_000) as u16,
            _ => 0,
        };
        self.group = self.group.wrapping_add(lost).wrapping_add(1);
        let last = self.lasts[channel as usize];
        let numbers = vec![64 | 9, channel, last.into(), self.group.into()];
        let length = if random.once_in(48) { longest + 1 } else { length(random, longest) };
        with_payload(random, length, Frame { op: 10, numbers, ..Frame::default() })
    }
}

fn length(random: &mut Random, longest: u32) -> u32 {
    match random.below(64) {
        0 => random.pick(&[0, longest - 1, longest]),
        1..=3 => random.below(longest.into()) as u32,
        _ => random.below(48) as u32,
    }
}

/// The frame with a payload in a datagram that also holds other commands.
fn with_payload(random: &mut Random, length: u32, mut frame: Frame) -> Frame {
    let place = random.pick(&[8, 12, 12, 40]);
    let more = random.pick(&[0, 0, 4, 20]);
    frame.numbers.extend([length, place]);
    frame.bytes = random.bytes((place + length + more) as usize);
    frame
}

#[cfg(test)]
mod tests {
    use super::*;

    #[test]
    fn a_reliable_packet_is_sent_again_until_it_is_answered() {
        let (mut random, mut far) = (Random::new(1), Far::facing(&Record::fresh(1_392)));
        let mut sent = std::iter::repeat_with(|| far.sends(&mut random, 1, 100, 0));
        let sent = sent.find(|frames| frames[0].op != 10).unwrap().remove(0);
        assert_eq!((sent.op, sent.number(1), sent.number(2)), (11, 0, 1));
        assert!(far.again(AGAIN - 1).is_empty());
        assert_eq!(far.again(AGAIN)[0].numbers, sent.numbers);
        assert!(far.again(AGAIN).is_empty());
        assert!(far.takes(Came::Answer { channel: 0, number: 1 }).is_none());
        assert!(far.again(2 * AGAIN).is_empty());
    }

    #[test]
    fn a_command_is_acknowledged_by_its_number_and_16_bits_of_its_time() {
        let mut far = Far::facing(&Record::fresh(1_392));
        let came = Came::Command { channel: 255, number: 7, sent_time: 65_541 };
        assert_eq!(far.takes(came).unwrap().numbers, [255, 7, 5]);
    }
}
