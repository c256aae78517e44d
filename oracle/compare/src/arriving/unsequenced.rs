//! Every input of a set: unsequenced arrivals where their rules turn.

use std::io;

use enet::record::{place, Incoming, Record, INCOMING, WORDS};

use super::{
    connected,
    order::{self, CAUSES},
    payload::{self, Asked},
    start, whole_store,
};
use crate::{
    build,
    frame::Frame,
    model::{Settings, CONNECTED, DISCONNECT_LATER},
    ops::unsequenced::WINDOW,
    output::Output,
    random::Random,
    records::{self, frame, set, sound},
};

/// The seed of the numbers that a set leaves open.
const SEED: u64 = 1;

/// Bases that are no multiple of a window.
const ODD_BASES: [u16; 8] = [1, 500, 1_023, 1_025, 32_767, 32_769, 64_511, 65_535];

/// The first and the last group of a window marked, or all others of their words; another word in use.
const MARKED: [(usize, u32); 3] = [(0, 1), (15, 5), (31, 1 << 31)];
const UNMARKED: [(usize, u32); 3] = [(0, !1), (15, 5), (31, !(1 << 31))];

/// The list of dispatched packets in op 21.
const DISPATCHED: u32 = 3;

/// What arrives, by base and group, and on what: slots left, and waiting settings against the total.
struct Grid {
    bases: Vec<u16>,
    groups: Vec<u16>,
    left: Vec<(usize, Vec<i32>)>,
}

impl Grid {
    /// Every window's first base, some others, and every window's first and last group. With nothing held no
    /// total is above the setting.
    fn full() -> Self {
        let windows = || (0..64).map(|window| window * WINDOW);
        Grid {
            bases: windows().chain(ODD_BASES).collect(),
            groups: windows().flat_map(|first| [first, first + (WINDOW - 1)]).collect(),
            left: vec![(12, vec![1, 0]), (1, vec![1, 0, -1]), (0, vec![1, 0, -1])],
        }
    }

    /// A few of each.
    fn slice() -> Self {
        Grid {
            bases: vec![0, 32_768, 33_792, 65_535],
            groups: vec![5, 1_023, 1_024, 32_767, 32_768],
            left: vec![(1, vec![1, 0]), (0, vec![1])],
        }
    }
}

/// All of the set.
pub fn write(output: &mut Output) -> io::Result<()> {
    let mut random = Random::new(SEED);
    write_grid(output, &mut random, &Grid::full())?;
    let record = connected(2);
    let asked = |length, place| frame(10, vec![73, 1, 7, 1_025, length, place]);
    payload::write(output, &mut random, &record, &Asked { frame: asked, store: 0 })?;
    order::write(output, &record, &three(), CAUSES)?;
    order::write_each(output, &mut random, &record, &three())
}

/// A thin slice of it.
pub fn write_slice(output: &mut Output) -> io::Result<()> {
    write_grid(output, &mut Random::new(SEED), &Grid::slice())?;
    order::write_alone(output, &connected(2), &three(), CAUSES)
}

/// Three bytes in the window after the first.
fn three() -> Frame {
    Frame { op: 10, numbers: vec![73, 1, 7, 1_025, 3, 0], bytes: vec![1, 2, 3] }
}

fn write_grid(output: &mut Output, random: &mut Random, grid: &Grid) -> io::Result<()> {
    start(output)?;
    for (left, against) in &grid.left {
        records::make(output, &holding(INCOMING - left))?;
        for more in against {
            let total = output.model.record.numbers[place::WAITING];
            let waiting = total.wrapping_add_signed(*more);
            output.put(&set(&Settings { waiting, ..Settings::START }))?;
            for state in [CONNECTED, DISCONNECT_LATER] {
                output.put(&frame(20, vec![place::STATE as u32, state]))?;
                for marks in [MARKED, UNMARKED] {
                    write_bases(output, random, grid, &marks)?;
                }
            }
        }
        output.put(&frame(15, vec![]))?;
    }
    start(output)
}

/// A connected record that holds so many packets.
fn holding(count: usize) -> Record {
    let mut record = connected(1);
    for slot in 0..count {
        record.incoming_slots[slot] = Incoming { byte: 73, length: 9, ..Incoming::default() };
        record.dispatched.push(slot);
    }
    sound::settle(&mut record);
    record
}

/// Every group from every base, each from the same record.
fn write_bases(
    output: &mut Output,
    random: &mut Random,
    grid: &Grid,
    marks: &[(usize, u32)],
) -> io::Result<()> {
    for base in &grid.bases {
        let mut from = output.model.record.clone();
        from.numbers[place::INCOMING_GROUP] = (*base).into();
        from.numbers[place::FLAGS] = 0;
        from.words = [0; WORDS];
        for (word, value) in marks {
            from.words[*word] = *value;
        }
        for group in &grid.groups {
            put_back(output, &from)?;
            output.put(&arrival(random, *group))?;
        }
        output.put(&whole_store())?;
        put_back(output, &from)?;
    }
    Ok(())
}

/// Makes the record again what it was, but for the flags, after an arrival or none.
fn put_back(output: &mut Output, from: &Record) -> io::Result<()> {
    let mut to = from.clone();
    let delivered = output.model.record.dispatched.length != from.dispatched.length;
    if delivered {
        to.numbers[place::FLAGS] = output.model.record.numbers[place::FLAGS];
        output.put(&frame(21, vec![DISPATCHED, 0, from.dispatched.length.into()]))?;
    }
    for frame in build::numbers(&output.model.record, &to) {
        output.put(&frame)?;
    }
    Ok(())
}

/// Three bytes from somewhere in a short datagram.
fn arrival(random: &mut Random, group: u16) -> Frame {
    let byte = random.pick(&[9, 73, 137, 249]);
    let number = random.up_to(65_535);
    let numbers = vec![byte, 0, number, group.into(), 3, random.pick(&[0, 2, 5])];
    Frame { op: 10, numbers, bytes: random.bytes(8) }
}

#[cfg(test)]
mod tests {
    use super::*;
    use crate::{
        met::{assert_met, replies},
        model::Model,
        ops,
    };

    #[test]
    fn the_slice_meets_every_reply() {
        assert_met(&replies(write_slice), 10, &["10 0 0", "10 0 1", "10 8"]);
    }

    #[test]
    fn a_record_is_put_back() {
        let mut output = Output::new(io::sink(), io::sink());
        output.model.record = holding(11);
        let from = output.model.record.clone();
        output.put(&arrival(&mut Random::new(1), 5_000)).unwrap();
        assert_eq!(output.model.record.dispatched.length, 12);
        put_back(&mut output, &from).unwrap();
        output.model.record.numbers[place::FLAGS] = 0;
        assert_eq!(output.model.record.row(), from.row());
    }

    /// The line, without its hash, of a group on a connected record of this base.
    fn answered(model: &mut Model, base: u32, group: u16) -> String {
        model.record = connected(1);
        model.record.numbers[place::INCOMING_GROUP] = base;
        again(model, group)
    }

    fn again(model: &mut Model, group: u16) -> String {
        let line = ops::answer(model, &arrival(&mut Random::new(1), group));
        line.split(" # ").next().unwrap().to_string()
    }

    #[test]
    fn cases_p1_to_p4() {
        let mut model = Model::new();
        for (base, group, line, after) in [
            (0, 32_767, "10 0 1", 31_744),
            (0, 32_768, "10 0 0", 0),
            (33_792, 5, "10 0 1", 0),
            (32_768, 5, "10 0 0", 32_768),
        ] {
            assert_eq!(answered(&mut model, base, group), line, "base {base}, group {group}");
            assert_eq!(model.record.numbers[place::INCOMING_GROUP], after);
        }
    }

    #[test]
    fn a_repeat_is_passed_over_and_leaves_no_trace() {
        let mut model = Model::new();
        assert_eq!(answered(&mut model, 0, 33), "10 0 1");
        let (record, store) = (model.record.clone(), model.store.clone());
        assert_eq!(again(&mut model, 33), "10 0 0");
        assert_eq!((model.record, model.store), (record, store));
    }

    #[test]
    fn what_is_delivered_lies_in_the_lowest_free_cell() {
        let mut model = Model::new();
        model.record = holding(2);
        let asked = arrival(&mut Random::new(1), 1);
        let at = asked.number(5) as usize;
        ops::answer(&mut model, &asked);
        assert_eq!(model.store[2 * 4_096..][..4], [&asked.bytes[at..at + 3], &[0]].concat());
        assert_eq!(model.record.dispatched.items(), [0, 1, 2]);
        let slot = &model.record.incoming_slots[2];
        assert_eq!(
            (u32::from(slot.byte), u32::from(slot.number)),
            (asked.number(0), asked.number(2))
        );
        assert_eq!((slot.length, model.record.numbers[place::WAITING]), (3, 21));
    }

    #[test]
    fn without_a_slot_the_move_and_the_clearing_stay_and_the_group_is_unmarked() {
        let mut model = Model::new();
        model.record = holding(12);
        model.record.words = [7; WORDS];
        assert_eq!(again(&mut model, 1_030), "10 8");
        assert_eq!(model.record.numbers[place::INCOMING_GROUP], 1_024);
        assert_eq!(model.record.words, [0; WORDS]);
    }
}
