//! Op 11: a reliable arrival, which the port adds: document 01's rule, and then the source's own dispatch.

use enet::record::{place, Incoming, Record};

use super::{
    arrival::{byte, channel, with_payload, Came},
    step::add,
    Group,
};
use crate::{
    frame::Frame,
    model::{Model, DISCONNECT_LATER},
    random::Random,
};

/// The command of a whole reliable packet.
pub const KIND: u8 = 6;

/// The farthest that is not passed over.
pub const FARTHEST: u16 = 32_767;

/// The place of the last number among a channel's numbers.
pub const LAST: usize = 2;

pub const GROUP: Group = Group { name: "11", weight: 2, frame, line };

/// What an arrival that is not refused with 6 or 7 comes to.
#[derive(Clone, Copy, Debug, PartialEq, Eq)]
pub enum Fate {
    PassedOver,
    /// With 8.
    Refused,
    /// In this slot, at this place of its channel's list.
    Stored {
        slot: usize,
        place: usize,
    },
}

fn frame(random: &mut Random, _: u64) -> Frame {
    drawn(random, &Record::fresh(1_392))
}

/// An arrival that suits the record.
pub fn drawn(random: &mut Random, record: &Record) -> Frame {
    let channel = channel(random, record);
    let last = record.channels.get(channel as usize).map_or(0, |channel| channel.numbers[LAST]);
    let number = last.wrapping_add(distance(random));
    let mut numbers = vec![byte(random, KIND), channel];
    numbers.push(if random.once_in(64) { 65_536 } else { number.into() });
    with_payload(random, Frame { op: 11, numbers, ..Frame::default() })
}

/// Mostly the next or soon after it; then around the farthest, behind, or any.
fn distance(random: &mut Random) -> u16 {
    match random.below(16) {
        0..=5 => 1,
        6..=11 => 1 + random.below(8) as u16,
        12 => FARTHEST - 1 + random.below(3) as u16,
        13 => 28_670 + random.below(4) as u16,
        14 => 0_u16.wrapping_sub(random.below(4) as u16),
        _ => random.up_to(65_535) as u16,
    }
}

fn line(model: &mut Model, frame: &Frame) -> String {
    let Some(came) = came(frame) else {
        return frame.bad();
    };
    let judged = || came.judged(&model.record, &model.settings);
    if let Some(number) = came.refusal(model, KIND).or_else(judged) {
        return model.reply(frame, number);
    }
    match fate(&model.record, model.settings.waiting, &came) {
        Fate::PassedOver => model.replies(frame, &[0, 0]),
        Fate::Refused => model.reply(frame, 8),
        Fate::Stored { slot, place } => {
            model.keep(slot, came.payload());
            model.own(
                |bench, record| ((), bench.hold(record, &held(&came), came.payload(), place)),
                |record| put(record, &came, place, slot),
            );
            model.record = model.bench.dispatch(&model.record, came.channel.into());
            model.replies(frame, &[0, 1])
        }
    }
}

/// What came in, if every number fits.
fn came(frame: &Frame) -> Option<Came<'_>> {
    Some(Came {
        byte: frame.number(0).try_into().ok()?,
        channel: frame.number(1).try_into().ok()?,
        number: frame.number(2).try_into().ok()?,
        group: 0,
        length: frame.number(3),
        place: frame.number(4),
        datagram: &frame.bytes,
    })
}

/// Document 01's arrival on a sound record that refuses with neither 6 nor 7, up to the dispatch.
pub fn store(record: &mut Record, waiting: u32, came: &Came) -> Fate {
    let fate = fate(record, waiting, came);
    if let Fate::Stored { slot, place } = fate {
        put(record, came, place, slot);
    }
    fate
}

/// What such an arrival comes to.
fn fate(record: &Record, waiting: u32, came: &Came) -> Fate {
    let Some(place) = place_for(record, came) else {
        return Fate::PassedOver;
    };
    match record.free_incoming() {
        Some(slot) if record.numbers[place::WAITING] < waiting => Fate::Stored { slot, place },
        _ => Fate::Refused,
    }
}

/// Document 01's place in the channel's list, if the arrival is not passed over.
fn place_for(record: &Record, came: &Came) -> Option<usize> {
    let distances = Distances::of(record, came);
    let over = distances.own == 0
        || distances.own > FARTHEST
        || distances.held.contains(&distances.own)
        || record.numbers[place::STATE] == DISCONNECT_LATER;
    (!over).then(|| distances.before_the_first_farther())
}

/// The arrival in this slot, which then stands at this place of its channel's list.
pub fn put(record: &mut Record, came: &Came, place: usize, slot: usize) {
    record.incoming_slots[slot] = held(came);
    record.channels[usize::from(came.channel)].list.insert(place, slot);
    add(record, place::WAITING, came.length);
}

/// The arrival as it is held.
fn held(came: &Came) -> Incoming {
    let &Came { byte, channel, number, length, .. } = came;
    Incoming { byte, channel, number, fragments: 0, remaining: 0, length }
}

/// The distances from the channel's last number, of the arrival and of those held, in their order.
pub struct Distances {
    pub own: u16,
    pub held: Vec<u16>,
}

impl Distances {
    pub fn of(record: &Record, came: &Came) -> Self {
        let channel = &record.channels[usize::from(came.channel)];
        let from = |number: u16| number.wrapping_sub(channel.numbers[LAST]);
        let held = channel.list.slots().map(|slot| from(record.incoming_slots[slot].number));
        Distances { own: from(came.number), held: held.collect() }
    }

    /// Document 01's place.
    pub fn before_the_first_farther(&self) -> usize {
        self.held.iter().position(|held| *held > self.own).unwrap_or(self.held.len())
    }
}

#[cfg(test)]
mod tests {
    use super::*;
    use crate::{model::Settings, records::sound};
    use enet::Bench;

    #[test]
    fn the_hand_on_the_sources_list_does_as_document_01_says() {
        let (mut random, mut bench) = (Random::new(1), Bench::new());
        let mut places = [0; 4];
        for _ in 0..20_000 {
            let mut record = sound::any(&mut random);
            record.numbers[place::STATE] = 5;
            let asked = drawn(&mut random, &record);
            let Some(came) = came(&asked) else {
                continue;
            };
            let mut after = record.clone();
            if came.judged(&record, &Settings::START).is_some() {
                continue;
            }
            if let Fate::Stored { place, .. } = store(&mut after, u32::MAX, &came) {
                let got = bench.hold(&record, &held(&came), came.payload(), place);
                assert_eq!(got.row(), after.row());
                places[place.min(3)] += 1;
            }
        }
        assert!(places.iter().all(|count| *count >= 20), "{places:?}");
    }
}
