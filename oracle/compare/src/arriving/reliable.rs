//! Every input of a set: reliable arrivals where their rules turn.

use std::io;

use enet::record::{place, Incoming, Record, INCOMING};

use super::{
    connected,
    order::{self, CAUSES},
    payload::{self, Asked},
    start, stores, whole_store,
};
use crate::{
    frame::Frame,
    model::{Settings, CONNECTED, DISCONNECT_LATER},
    output::Output,
    random::Random,
    records::{self, block, frame, set, sound},
};

/// The seed of the numbers that a set leaves open.
const SEED: u64 = 1;

/// Last numbers, and distances from them.
const LASTS: [u16; 5] = [0, 1, 32_767, 32_768, 65_535];
const DISTANCES: [u16; 9] = [0, 1, 2, 28_671, 28_672, 32_766, 32_767, 32_768, 65_535];

/// The numbers held, by how far they are from the arrival's own: none, itself, nearer, farther, both, eleven; then
/// lists that no arrival leaves: out of order, repeated, itself behind a nearer one.
const HELD: [&[i16]; 11] = [
    &[],
    &[0],
    &[-1],
    &[1],
    &[-1, 1],
    &[-5, -4, -3, -2, -1, 1, 2, 3, 4, 5, 6],
    &[-3, -1, 1, 2, 5],
    &[1, -1],
    &[2, 1, -1, -2],
    &[-1, -1, 1, 1],
    &[0, -1],
];

/// What room there is: some, none by the waiting setting, none by the slots.
#[derive(Clone, Copy, PartialEq, Eq)]
enum Room {
    Some,
    Waiting,
    Slots,
}

/// What the lists are tried with: fragments of those held, states, rooms.
struct Tried<'a> {
    fragments: &'a [u32],
    states: &'a [u32],
    rooms: &'a [Room],
}

const ALL: Tried = Tried {
    fragments: &[0, 3],
    states: &[CONNECTED, DISCONNECT_LATER],
    rooms: &[Room::Some, Room::Waiting, Room::Slots],
};
const FEW: Tried = Tried { fragments: &[0], states: &[CONNECTED], rooms: &[Room::Some] };

/// All of the set.
pub fn write(output: &mut Output) -> io::Result<()> {
    let mut random = Random::new(SEED);
    for last in LASTS {
        for distance in DISTANCES {
            write_held(output, &mut random, (last, distance), &ALL)?;
        }
    }
    start(output)?;
    let record = connected(2);
    let asked = |length, place| frame(11, vec![134, 1, 1, length, place]);
    payload::write(output, &mut random, &record, &Asked { frame: asked, store: 0 })?;
    order::write(output, &record, &three(), CAUSES)?;
    order::write_each(output, &mut random, &record, &three())
}

/// Three bytes, next in turn.
fn three() -> Frame {
    Frame { op: 11, numbers: vec![134, 1, 1, 3, 0], bytes: vec![1, 2, 3] }
}

/// A thin slice of it.
pub fn write_slice(output: &mut Output) -> io::Result<()> {
    let mut random = Random::new(SEED);
    for (last, distance) in [(65_535, 1), (65_535, 2), (0, 32_767), (0, 32_768)] {
        write_held(output, &mut random, (last, distance), &FEW)?;
    }
    order::write_alone(output, &connected(2), &three(), CAUSES)
}

/// Every list with all that is tried, and the same arrival once more.
fn write_held(
    output: &mut Output,
    random: &mut Random,
    (last, distance): (u16, u16),
    tried: &Tried,
) -> io::Result<()> {
    let number = last.wrapping_add(distance);
    for held in HELD {
        for fragments in tried.fragments {
            for state in tried.states {
                for room in tried.rooms {
                    let mut record = holding(random, last, number, held, *fragments);
                    record.numbers[place::STATE] = *state;
                    open(output, &mut record, *room)?;
                    if stores(output, &arrival(random, number))? {
                        output.put(&whole_store())?;
                    }
                    output.put(&arrival(random, number))?;
                }
            }
        }
    }
    output.put(&whole_store())?;
    output.put(&frame(15, vec![]))
}

/// Makes the record with this room, and the settings that leave it.
fn open(output: &mut Output, record: &mut Record, room: Room) -> io::Result<()> {
    if room == Room::Slots {
        fill(record);
    }
    let total = record.numbers[place::WAITING];
    let waiting = if room == Room::Waiting { total } else { total + 1 };
    output.put(&set(&Settings { waiting, ..Settings::START }))?;
    records::make(output, record)
}

/// A connected record whose channel 1 has this last number and holds these, the middle one in so many fragments; 3 make
/// the numbers that follow stale.
fn holding(random: &mut Random, last: u16, number: u16, held: &[i16], fragments: u32) -> Record {
    let mut record = connected(2);
    record.channels[1].numbers = [7, 8, last, 9];
    for (more, slot) in held.iter().zip(random.shuffled(INCOMING)) {
        let number = number.wrapping_add_signed(*more);
        let length = random.below(9) as u32;
        record.incoming_slots[slot] =
            Incoming { byte: 134, channel: 1, number, length, ..Incoming::default() };
        record.channels[1].list.push(slot);
    }
    let middle = record.channels[1].list.slots().nth(held.len() / 2);
    if let Some(slot) = middle.filter(|_| fragments > 0) {
        let length = record.incoming_slots[slot].length.max(1);
        block::put_whole(&mut record, slot, length, fragments);
    }
    sound::settle(&mut record);
    record
}

/// Takes every slot that is left for a dispatched packet.
fn fill(record: &mut Record) {
    while let Some(slot) = record.free_incoming() {
        record.incoming_slots[slot] = Incoming { byte: 73, length: 1, ..Incoming::default() };
        record.dispatched.push(slot);
    }
    sound::settle(record);
}

/// Up to four bytes from somewhere in a short datagram.
fn arrival(random: &mut Random, number: u16) -> Frame {
    let byte = random.pick(&[6, 70, 134, 246]);
    let numbers = vec![byte, 1, number.into(), random.below(5) as u32, random.pick(&[0, 2, 4])];
    Frame { op: 11, numbers, bytes: random.bytes(8) }
}

#[cfg(test)]
mod tests {
    use super::*;
    use crate::{
        met::{assert_met, replies},
        model::Model,
        ops::{self, reliable::LAST},
    };

    #[test]
    fn the_set_meets_every_reply() {
        let met = replies(write);
        let replies =
            ["11 0 0", "11 0 1", "11 6", "11 7", "11 8", "11 9", "11 11", "11 13", "11 bad"];
        assert_met(&met, 1, &replies);
    }

    /// The line, without its hash, of this number on channel 1.
    fn answered(model: &mut Model, number: u16) -> String {
        let line = ops::answer(model, &arrival(&mut Random::new(1), number));
        line.split(" # ").next().unwrap().to_string()
    }

    /// A model with two channels, of which the second has this last number.
    fn waiting(last: u16) -> Model {
        let mut model = Model::new();
        model.record = connected(2);
        model.record.channels[1].numbers[LAST] = last;
        model
    }

    #[test]
    fn a_gap_is_held_and_closed() {
        let mut model = waiting(65_534);
        assert_eq!(answered(&mut model, 0), "11 0 1");
        assert_eq!(answered(&mut model, 1), "11 0 1");
        assert_eq!((model.record.channels[1].list.length, model.record.dispatched.length), (2, 0));
        assert_eq!(answered(&mut model, 65_535), "11 0 1");
        assert_eq!(model.record.dispatched.items(), [2, 0, 1]);
        assert_eq!(model.record.channels[1].numbers[LAST], 1);
        assert_eq!(model.record.numbers[place::FLAGS], 1);
    }

    #[test]
    fn a_repeat_is_passed_over_and_leaves_no_trace() {
        for number in [1, 2] {
            let mut model = waiting(0);
            assert_eq!(answered(&mut model, number), "11 0 1");
            let (record, store) = (model.record.clone(), model.store.clone());
            assert_eq!(answered(&mut model, number), "11 0 0");
            assert_eq!((model.record, model.store), (record, store));
        }
    }

    #[test]
    fn the_farthest_is_32767() {
        assert_eq!(answered(&mut waiting(0), 32_767), "11 0 1");
        assert_eq!(answered(&mut waiting(0), 32_768), "11 0 0");
    }

    #[test]
    fn case_p9_by_arrival() {
        let mut model = waiting(65_534);
        for (slot, number) in [0, 3].into_iter().enumerate() {
            model.record.incoming_slots[slot] =
                Incoming { byte: 136, channel: 1, number, ..Incoming::default() };
            model.record.channels[1].list.push(slot);
        }
        block::put_whole(&mut model.record, 0, 3, 3);
        sound::settle(&mut model.record);
        assert_eq!(model.record.marks, [7, 0]);
        assert_eq!(answered(&mut model, 65_535), "11 0 1");
        assert_eq!(model.record.dispatched.items(), [2, 0, 1]);
        assert_eq!(model.record.channels[1].numbers[LAST], 3);
    }
}
