//! The set `snapshot`: records of every shape, written, changed, restored and written again.

use std::io;

use enet::record::{place, Record};

use super::{
    draw,
    laying::{carry, lay, open, put, restore, show, stores, write, write_all},
    writer,
};
use crate::{
    arriving::connected,
    model::BUFFER,
    output::Output,
    random::Random,
    records::{
        self, frame,
        odd::ODDS,
        sound::{shaped, Shape},
    },
};

/// The seed of all that the set leaves open.
const SEED: u64 = 1;

/// How many records of no named shape.
const DRAWN: u64 = 400;

/// All of the set.
pub fn write_set(output: &mut Output) -> io::Result<()> {
    let random = &mut Random::new(SEED);
    open(output)?;
    for record in named(random) {
        case(output, random, &record)?;
    }
    for (_, make) in ODDS {
        let record = make(random);
        case(output, random, &record)?;
    }
    for turn in 0..DRAWN {
        let record = draw::any(random);
        case(output, random, &record)?;
        if turn % 4 == 0 {
            let record = draw::any(random);
            made(output, random, &record)?;
        }
    }
    Ok(())
}

/// A thin slice of it.
pub fn write_slice(output: &mut Output) -> io::Result<()> {
    let random = &mut Random::new(SEED);
    open(output)?;
    for record in [connected(1), draw::everything(random)] {
        case(output, random, &record)?;
    }
    let mut record = draw::any(random);
    draw::thin(random, &mut record);
    made(output, random, &record)
}

/// The shortest and the longest, new ones of each count, every command in each list, and full lists.
fn named(random: &mut Random) -> Vec<Record> {
    let mut shortest = Record::zero();
    shortest.numbers[place::MTU] = 576;
    let mut records = vec![shortest, Record::fresh(1_392), draw::longest(random)];
    records.extend((0..=8).map(connected));
    let full = Shape { sent: 11, send_reliable: 11, outgoing: 10, ..Shape::default() };
    let shapes = [
        Shape { sent: 12, ..Shape::default() },
        Shape { send_reliable: 12, ..Shape::default() },
        Shape { outgoing: 12, ..Shape::default() },
        Shape { dispatched: 4, channels: vec![1; 8], ..full },
    ];
    for shape in shapes {
        let mut record = shaped(random, &shape);
        draw::name_commands(random, &mut record);
        records.push(record);
    }
    records.push(draw::everything(random));
    records
}

/// The record restored, written with every room over what lies there, changed, restored and written again.
fn case(output: &mut Output, random: &mut Random, record: &Record) -> io::Result<()> {
    let bytes = draw::snapshot(random, record);
    let length = bytes.len();
    carry(output, &bytes)?;
    stores(output)?;
    // What the writer must write anew, and a byte that it must leave.
    let other: Vec<u8> = bytes.iter().take(40).map(|byte| !byte).collect();
    put(output, 0, &other)?;
    put(output, length, &[random.next() as u8])?;
    for room in [0, length / 2, length - 1] {
        output.put(&write(room))?;
    }
    output.put(&show(0, 8))?;
    output.put(&write(length))?;
    output.put(&show(0, 8))?;
    output.put(&show(length - 4, 6))?;
    output.put(&write(BUFFER))?;
    change(output, random)?;
    output.put(&restore(length))?;
    stores(output)?;
    if random.once_in(4) {
        output.put(&frame(15, vec![]))?;
    }
    output.put(&write_all())
}

/// The same of a record that the bench makes over the stores as they are.
fn made(output: &mut Output, random: &mut Random, record: &Record) -> io::Result<()> {
    records::make(output, record)?;
    output.put(&write_all())?;
    let length = writer::write(record, &output.model.store, &output.model.second).len();
    change(output, random)?;
    output.put(&restore(length))?;
    stores(output)?;
    output.put(&write_all())
}

/// A reset, another record, or a call.
fn change(output: &mut Output, random: &mut Random) -> io::Result<()> {
    match random.below(3) {
        0 => output.put(&frame(1, vec![])),
        1 => {
            let kept = output.model.buffer.clone();
            let record = draw::everything(random);
            let bytes = draw::snapshot(random, &record);
            carry(output, &bytes)?;
            lay(output, &kept[..bytes.len()])
        }
        _ => {
            let which = random.pick(&[place::STATE, place::EVENT_DATA, place::ROUND_TRIP]);
            output.put(&frame(20, vec![which as u32, random.up_to(9)]))?;
            output.put(&frame(13, vec![]))
        }
    }
}

#[cfg(test)]
mod tests {
    use super::*;
    use crate::met::{assert_met, replies};

    #[test]
    fn the_set_meets_what_it_is_about() {
        let met = replies(write_set);
        assert_met(&met, 400, &["33 12", "34 0"]);
        assert_met(&met, 1, &["33 0 101"]);
        assert!(met.keys().all(|reply| !reply.contains("bad") && !reply.contains("unknown")));
        assert!(!met.contains_key("33 13") && !met.contains_key("34 15"));
    }
}
