//! Scripts about whole records: random ones to reset, and each kind of damage.

pub mod block;
pub mod harm;
pub mod odd;
pub mod sound;

use std::io;

use enet::record::Record;

use crate::{
    build,
    frame::Frame,
    mix::Mix,
    model::Settings,
    ops::{self, acknowledgement, throttle, timeouts},
    output::Output,
    random::Random,
};

/// The seed of the records of damage, which take no seed from outside.
const SEED: u64 = 1;

/// The maximum packet of the start.
pub const PACKET: u32 = Settings::START.packet;

/// A script in which so many records are built and reset, with other calls around.
pub fn write(output: &mut Output, seed: u64, count: u64, mix: Mix) -> io::Result<()> {
    let mut random = Random::new(seed);
    for _ in 0..count {
        let record = match random.below(32) {
            0 => harm::any(&mut random),
            1..=3 => sound::any(&mut random),
            _ => sound::light(&mut random, &output.model.record),
        };
        make(output, &record)?;
        look(output, &mut random)?;
        for _ in 0..random.below(3) {
            call(output, &mut random, mix)?;
        }
        if random.once_in(8) {
            refused(output, &mut random, mix)?;
        }
        let mtu = 576 + random.up_to(4_096 - 576);
        let packet = 1 + random.up_to(1_073_741_823);
        output.put(&settings(mtu, packet))?;
        output.put(&frame(1, vec![]))?;
        look(output, &mut random)?;
        for _ in 0..random.below(4) {
            call(output, &mut random, mix)?;
        }
    }
    Ok(())
}

/// A script with every kind of damage, one at a time, and then with what only looks like damage.
pub fn write_damage(output: &mut Output) -> io::Result<()> {
    let mut random = Random::new(SEED);
    for (_, record) in harm::HARMS.iter().chain(odd::ODDS) {
        make(output, &record(&mut random))?;
        output.put(&frame(15, vec![]))?;
        for (mtu, packet) in [(1_392, PACKET), (575, PACKET), (1_392, 0), (1_392, PACKET)] {
            output.put(&settings(mtu, packet))?;
            output.put(&frame(3, vec![random.up_to(9)]))?;
        }
        output.put(&frame(2, vec![1_392, 8]))?;
        output.put(&frame(1, vec![]))?;
    }
    Ok(())
}

pub fn frame(op: u8, numbers: Vec<u32>) -> Frame {
    Frame { op, numbers, ..Frame::default() }
}

/// The settings of the start with another MTU and maximum packet.
pub fn settings(mtu: u32, packet: u32) -> Frame {
    set(&Settings { mtu, packet, ..Settings::START })
}

/// The frame that makes these the settings.
pub fn set(settings: &Settings) -> Frame {
    let Settings { mtu, packet, waiting, checksum, store, second } = *settings;
    frame(0, vec![mtu, packet, waiting, checksum.into(), store, second])
}

/// Turns the model's record into this one.
pub fn make(output: &mut Output, record: &Record) -> io::Result<()> {
    for frame in build::frames(&output.model.record, record) {
        output.put(&frame)?;
    }
    Ok(())
}

/// Now and then the whole record, and the store's hash.
fn look(output: &mut Output, random: &mut Random) -> io::Result<()> {
    if random.once_in(4) {
        output.put(&frame(15, vec![]))?;
    }
    if random.once_in(8) {
        output.put(&drawn("16", random))?;
    }
    Ok(())
}

/// A call of some op of the mix, which suits the record where that matters.
fn call(output: &mut Output, random: &mut Random, mix: Mix) -> io::Result<()> {
    let record = &output.model.record;
    let frame = match random.pick(mix.calls()) {
        "8" => acknowledgement::drawn(random, record),
        "9" => timeouts::drawn(random, record),
        "14" => throttle::drawn(random, record),
        name => drawn(name, random),
    };
    output.put(&frame)
}

/// Calls that a bad setting refuses, be the record sound or damaged.
fn refused(output: &mut Output, random: &mut Random, mix: Mix) -> io::Result<()> {
    let bad = [(575, PACKET), (4_097, PACKET), (1_392, 0), (1_392, 1_073_741_825)];
    let (mtu, packet) = random.pick(&bad);
    output.put(&settings(mtu, packet))?;
    output.put(&frame(1, vec![]))?;
    call(output, random, mix)
}

/// A frame of the group of this name.
pub fn drawn(name: &str, random: &mut Random) -> Frame {
    let group = ops::named(name).expect("the group is known");
    (group.frame)(random, 0)
}

#[cfg(test)]
mod tests {
    use super::*;

    /// The number that each call of this op replied.
    fn replies(lines: &[u8], op: &str) -> Vec<String> {
        let lines = String::from_utf8(lines.to_vec()).unwrap();
        lines
            .lines()
            .filter_map(|line| line.strip_prefix(op)?.strip_prefix(' '))
            .map(|rest| rest.split(' ').next().unwrap().to_string())
            .collect()
    }

    fn count(replies: &[String], number: &str) -> usize {
        replies.iter().filter(|reply| *reply == number).count()
    }

    #[test]
    fn so_many_records_are_reset_and_every_reply_is_met() {
        let mut lines = Vec::new();
        write(&mut Output::new(io::sink(), &mut lines), 1, 4_000, Mix::All).unwrap();
        assert_eq!(count(&replies(&lines, "1"), "0"), 4_000);
        for op in Mix::All.calls() {
            for number in ["0", "11", "13"] {
                assert!(count(&replies(&lines, op), number) >= 10, "op {op}, reply {number}");
            }
        }
    }

    #[test]
    fn damage_answers_13_and_a_bad_setting_before_it_11() {
        let mut lines = Vec::new();
        write_damage(&mut Output::new(io::sink(), &mut lines)).unwrap();
        let states = replies(&lines, "3");
        let (harmed, odd) = states.split_at(4 * harm::HARMS.len());
        assert!(harmed.chunks(4).all(|four| four == ["13", "11", "11", "13"]));
        assert!(odd.chunks(4).all(|four| four == ["0", "11", "11", "0"]));
        assert_eq!(odd.len(), 4 * odd::ODDS.len());
    }
}
