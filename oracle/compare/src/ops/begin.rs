//! Op 2: begin, which the port adds: document 01's rule.

use enet::record::{place, Channel, Record, CHANNELS};

use super::Group;
use crate::{
    frame::Frame,
    model::{mtu_fits, Model},
    random::Random,
};

pub const GROUP: Group = Group { name: "2", weight: 1, frame, line };

fn frame(random: &mut Random, _: u64) -> Frame {
    let mtu = match random.below(4) {
        0 => random.pick(&[0, 575, 4_097, u32::MAX]),
        _ => 576 + random.up_to(4_096 - 576),
    };
    let channels = match random.below(4) {
        0 => random.pick(&[0, 9, 255, 256, u32::MAX]),
        _ => 1 + random.up_to(CHANNELS as u32 - 1),
    };
    Frame { op: 2, numbers: vec![mtu, channels], ..Frame::default() }
}

fn line(model: &mut Model, frame: &Frame) -> String {
    if let Some(number) = model.refusal() {
        return model.reply(frame, number);
    }
    let (mtu, channels) = (frame.number(0), frame.number(1));
    let fits = mtu_fits(mtu) && (1..=CHANNELS as u32).contains(&channels);
    if !fits || model.record.numbers[place::CHANNEL_COUNT] != 0 {
        return model.reply(frame, 11);
    }
    model.own(
        |bench, record| ((), bench.begin(record, mtu, channels as usize)),
        |record| begin(record, mtu, channels),
    );
    model.reply(frame, 0)
}

/// Document 01's begin of a sound record without channels.
fn begin(record: &mut Record, mtu: u32, channels: u32) {
    record.numbers[place::MTU] = mtu;
    record.numbers[place::CHANNEL_COUNT] = channels;
    record.channels = std::array::from_fn(|_| Channel::default());
}

#[cfg(test)]
mod tests {
    use super::*;
    use crate::records::sound;
    use enet::Bench;

    #[test]
    fn the_hand_on_the_sources_structs_does_as_document_01_says() {
        let (mut random, mut bench, mut met) = (Random::new(1), Bench::new(), 0);
        while met < 500 {
            let record = sound::any(&mut random);
            if record.numbers[place::CHANNEL_COUNT] != 0 {
                continue;
            }
            let (mtu, channels) = (576 + random.up_to(3_520), 1 + random.up_to(7));
            let mut after = record.clone();
            begin(&mut after, mtu, channels);
            assert_eq!(bench.begin(&record, mtu, channels as usize).row(), after.row());
            met += 1;
        }
    }
}
