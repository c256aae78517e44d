//! Op 4: ping. The refusals are document 01's, since the source has no slots and is silent outside state 5.

use enet::record::{place, Record};

use super::Group;
use crate::{
    frame::Frame,
    model::{Model, CONNECTED},
    random::Random,
};

pub const GROUP: Group = Group { name: "4", weight: 1, frame, line };

fn frame(_: &mut Random, _: u64) -> Frame {
    Frame { op: 4, ..Frame::default() }
}

fn line(model: &mut Model, frame: &Frame) -> String {
    if let Some(number) = model.refusal().or_else(|| refusal(&model.record)) {
        return model.reply(frame, number);
    }
    model.record = model.bench.ping(&model.record);
    model.reply(frame, 0)
}

fn refusal(record: &Record) -> Option<u32> {
    if record.numbers[place::STATE] != CONNECTED {
        return Some(1);
    }
    (record.free_outgoing() == 0).then_some(5)
}

#[cfg(test)]
mod tests {
    use super::*;
    use enet::Bench;

    #[test]
    fn the_source_is_silent_outside_state_5() {
        let mut bench = Bench::new();
        for state in (0..=10).filter(|state| *state != CONNECTED) {
            let mut record = Record::fresh(1_392);
            record.numbers[place::STATE] = state;
            assert_eq!(bench.ping(&record), record, "state {state}");
        }
    }

    #[test]
    fn a_ping_is_command_5_with_flag_128_on_channel_255_without_a_packet() {
        let mut record = Record::fresh(1_392);
        record.numbers[place::STATE] = CONNECTED;
        let after = Bench::new().ping(&record);
        let command = &after.outgoing_slots[0];
        assert_eq!((command.byte, command.channel, command.packet), (128 | 5, 255, false));
        assert_eq!(
            (command.reliable, command.queue_time, after.outgoing.items()),
            (1, 1, &[0][..])
        );
        assert_eq!(after.numbers[place::OUTGOING_TOTAL], 4);
    }
}
