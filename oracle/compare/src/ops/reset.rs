//! Op 1: reset.

use enet::record::{place, Record};

use super::Group;
use crate::{damage::damaged, frame::Frame, model::Model, random::Random};

/// What a reset keeps: the incoming peer id, the session ids, `reserved` and the host count.
const KEPT: [usize; 5] = [
    place::INCOMING_PEER_ID,
    place::OUTGOING_SESSION,
    place::INCOMING_SESSION,
    place::RESERVED,
    place::HOST_COUNT,
];

pub const GROUP: Group = Group { name: "1", weight: 1, frame, line };

fn frame(_: &mut Random, _: u64) -> Frame {
    Frame { op: 1, ..Frame::default() }
}

fn line(model: &mut Model, frame: &Frame) -> String {
    if !model.settings.fit() {
        return model.reply(frame, 11);
    }
    let mtu = model.settings.mtu;
    // No peer of the source can be damaged in these ways, so there document 01 answers alone.
    model.record = if damaged(&model.record) {
        reset(mtu, &model.record)
    } else {
        model.bench.reset(mtu, &model.record)
    };
    model.reply(frame, 0)
}

/// The reset record with the kept numbers, as document 01 says.
fn reset(mtu: u32, record: &Record) -> Record {
    let mut after = Record::fresh(mtu);
    for place in KEPT {
        after.numbers[place] = record.numbers[place];
    }
    after
}

#[cfg(test)]
mod tests {
    use super::*;
    use crate::records::{odd::ODDS, sound};
    use enet::Bench;

    #[test]
    fn the_source_resets_as_document_01_says() {
        let (mut random, mut bench) = (Random::new(1), Bench::new());
        for _ in 0..300 {
            let record = sound::any(&mut random);
            assert_eq!(bench.reset(1_392, &record), reset(1_392, &record));
        }
        for (name, make) in ODDS {
            let record = make(&mut random);
            assert_eq!(bench.reset(576, &record), reset(576, &record), "{name}");
        }
    }
}
