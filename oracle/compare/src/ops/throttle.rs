//! Op 14: the throttle on the record. 11 and 13 are document 01's; all else is what the source's own does.

use enet::record::{place, Record};

use super::Group;
use crate::{frame::Frame, model::Model, random::Random};

pub const GROUP: Group = Group { name: "14", weight: 2, frame, line };

fn frame(random: &mut Random, _: u64) -> Frame {
    drawn(random, &Record::fresh(1_392))
}

/// A sample close to where the record's tests turn, or any.
pub fn drawn(random: &mut Random, record: &Record) -> Frame {
    let last = record.numbers[place::LAST_ROUND_TRIP];
    let variance = record.numbers[place::LAST_VARIANCE];
    let near = (random.below(3) as u32).wrapping_sub(1);
    let sample = match random.below(4) {
        0 => last.wrapping_add(near),
        1 => last.wrapping_add(variance.wrapping_mul(2)).wrapping_add(near),
        2 => random.up_to(1_000),
        _ => random.up_to(u32::MAX),
    };
    of(sample)
}

/// A throttle by this sample.
pub fn of(sample: u32) -> Frame {
    Frame { op: 14, numbers: vec![sample], ..Frame::default() }
}

fn line(model: &mut Model, frame: &Frame) -> String {
    if let Some(number) = model.refusal() {
        return model.reply(frame, number);
    }
    let (returned, after) = model.bench.throttled(&model.record, frame.number(0));
    model.record = after;
    model.replies(frame, &[0, number(returned)])
}

/// The script's number for what the source returned.
fn number(returned: i32) -> u32 {
    match returned {
        0 => 0,
        1 => 1,
        -1 => 2,
        other => unreachable!("the source returned {other}"),
    }
}

#[cfg(test)]
pub mod tests {
    use super::*;
    use crate::records::sound;
    use enet::Bench;

    /// Document 01's throttle: its reply's value, and the record after it.
    pub fn roll(record: &mut Record, sample: u32) -> u32 {
        let [last, variance, limit, up, down] = [
            place::LAST_ROUND_TRIP,
            place::LAST_VARIANCE,
            place::THROTTLE_LIMIT,
            place::THROTTLE_ACCELERATION,
            place::THROTTLE_DECELERATION,
        ]
        .map(|place| record.numbers[place]);
        let value = &mut record.numbers[place::THROTTLE];
        if last <= variance {
            *value = limit;
            0
        } else if sample <= last {
            *value = value.wrapping_add(up).min(limit);
            1
        } else if sample > last.wrapping_add(variance.wrapping_mul(2)) {
            *value = value.saturating_sub(down);
            2
        } else {
            0
        }
    }

    #[test]
    fn the_source_throttles_as_document_01_says() {
        let (mut random, mut bench) = (Random::new(1), Bench::new());
        let mut met = [0; 3];
        for _ in 0..20_000 {
            let mut record = sound::light(&mut random, &Record::fresh(1_392));
            if random.once_in(2) {
                record.numbers[place::LAST_VARIANCE] = random.below(300) as u32;
            }
            let sample = drawn(&mut random, &record).number(0);
            let mut after = record.clone();
            let told = roll(&mut after, sample);
            let (returned, got) = bench.throttled(&record, sample);
            assert_eq!((number(returned), got), (told, after));
            met[told as usize] += 1;
        }
        assert!(met.iter().all(|count| *count >= 1_000), "{met:?}");
    }
}
