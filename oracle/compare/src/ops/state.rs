//! Op 3: set state, which the port adds: document 01's rule.

use enet::record::place;

use super::Group;
use crate::{frame::Frame, model::Model, random::Random};

/// The last state, a zombie.
const LAST: u32 = 9;

pub const GROUP: Group = Group { name: "3", weight: 1, frame, line };

fn frame(random: &mut Random, _: u64) -> Frame {
    let state = match random.below(6) {
        0 => random.pick(&[LAST + 1, 256, u32::MAX]),
        _ => random.up_to(LAST),
    };
    Frame { op: 3, numbers: vec![state], ..Frame::default() }
}

fn line(model: &mut Model, frame: &Frame) -> String {
    let state = frame.number(0);
    if let Some(number) = model.refusal() {
        return model.reply(frame, number);
    }
    if state > LAST {
        return model.reply(frame, 11);
    }
    model.own(
        |bench, record| ((), bench.set_state(record, state)),
        |record| record.numbers[place::STATE] = state,
    );
    model.reply(frame, 0)
}

#[cfg(test)]
mod tests {
    use super::*;
    use crate::records::sound;
    use enet::Bench;

    #[test]
    fn the_sources_change_of_state_changes_only_the_state() {
        let (mut random, mut bench) = (Random::new(1), Bench::new());
        for turn in 0..500 {
            let mut record = sound::any(&mut random);
            let (state, before) = (turn % (LAST + 1), record.clone());
            record.numbers[place::STATE] = state;
            assert_eq!(bench.set_state(&before, state), record);
        }
    }
}
