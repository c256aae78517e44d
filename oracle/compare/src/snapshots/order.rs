//! The set `snapshot-order`: what refuses ops 33 and 34, one by one and together; and ops 35 and 36 at the buffer's end.

use std::io;

use enet::record::place;

use super::{
    draw,
    laying::{carry, open, put, restore, show, stores},
};
use crate::{
    arriving::connected,
    frame::Frame,
    model::{Settings, BUFFER, SECOND, STORE},
    output::Output,
    random::Random,
    records::{frame, set},
};

/// The seed of all that the set leaves open.
const SEED: u64 = 1;

/// Settings: the first fit, and each other is refused with 11.
fn settings() -> Vec<Settings> {
    let fit = Settings::START;
    vec![
        fit,
        Settings { mtu: 575, ..fit },
        Settings { mtu: 4_097, ..fit },
        Settings { packet: 0, ..fit },
        Settings { packet: 1_073_741_825, ..fit },
        Settings { store: STORE as u32 - 1, ..fit },
        Settings { store: 0, ..fit },
        Settings { second: SECOND as u32 - 1, ..fit },
        Settings { second: 0, ..fit },
    ]
}

/// All of the set.
pub fn write_set(output: &mut Output) -> io::Result<()> {
    let random = &mut Random::new(SEED);
    open(output)?;
    for settings in settings() {
        write_together(output, random, &settings)?;
    }
    write_five(output)?;
    write_bad(output, random)
}

/// A thin slice of it.
pub fn write_slice(output: &mut Output) -> io::Result<()> {
    let random = &mut Random::new(SEED);
    open(output)?;
    for at in [0, 1, 7] {
        write_together(output, random, &settings()[at])?;
    }
    write_five(output)?;
    write_bad(output, random)
}

/// Both ops with the record sound and damaged: op 33 with every edition and room, op 34 with what reads, is damaged, does not
/// read.
fn write_together(output: &mut Output, random: &mut Random, settings: &Settings) -> io::Result<()> {
    let sound = draw::snapshot(random, &connected(2));
    let mut damaged = connected(2);
    damaged.numbers[place::MTU] = 575;
    let damaged = draw::snapshot(random, &damaged);
    carry(output, &sound)?;
    output.put(&set(settings))?;
    for mtu in [1_392, 575] {
        for edition in [0, 1, 2, u32::MAX] {
            for room in [0, sound.len() - 1, sound.len(), BUFFER] {
                output.put(&frame(20, vec![place::MTU as u32, mtu]))?;
                output.put(&frame(33, vec![edition, room as u32]))?;
            }
        }
        for bytes in [&sound, &damaged, &sound[1..].to_vec()] {
            output.put(&frame(20, vec![place::MTU as u32, mtu]))?;
            carry(output, bytes)?;
        }
    }
    output.put(&set(&Settings::START))?;
    carry(output, &sound)?;
    stores(output)
}

/// An op 0 with five numbers lends nothing of the second store.
fn write_five(output: &mut Output) -> io::Result<()> {
    let mut five = set(&Settings::START);
    five.numbers.pop();
    for settings in [five, set(&Settings::START)] {
        output.put(&settings)?;
        output.put(&frame(33, vec![1, BUFFER as u32]))?;
        output.put(&restore(0))?;
    }
    Ok(())
}

/// Numbers missing, too large, or one too many; places and counts at the buffer's end.
fn write_bad(output: &mut Output, random: &mut Random) -> io::Result<()> {
    let last = BUFFER as u32;
    for numbers in [vec![], vec![1], vec![1, last], vec![1, last, 7], vec![0, last + 1]] {
        output.put(&frame(33, numbers))?;
    }
    output.put(&frame(33, vec![1, u32::MAX]))?;
    for numbers in [vec![], vec![0], vec![last], vec![last, 7], vec![last + 1], vec![u32::MAX]] {
        output.put(&frame(34, numbers))?;
    }
    let bytes = random.bytes(3);
    for place in [last - 4, last - 3, last - 2, last - 1, last, last + 1, u32::MAX] {
        for count in 0..=3 {
            let numbers = vec![place];
            output.put(&Frame { op: 35, numbers, bytes: bytes[..count].to_vec() })?;
        }
        output.put(&frame(36, vec![place, 2]))?;
        output.put(&frame(36, vec![place, u32::MAX]))?;
    }
    put(output, BUFFER - 2, &random.bytes(2))?;
    // A place that is missing is 0.
    output.put(&Frame { op: 35, numbers: vec![], bytes })?;
    for numbers in [vec![], vec![3], vec![0, 4], vec![0, 4, 7], vec![1, 1]] {
        output.put(&frame(36, numbers))?;
    }
    output.put(&show(BUFFER - 3, 4))
}

#[cfg(test)]
mod tests {
    use super::*;
    use crate::met::{assert_met, replies};

    #[test]
    fn the_set_meets_every_reply() {
        let met = replies(write_set);
        let replies = ["33 11", "33 12", "33 13", "33 15", "34 0", "34 11", "34 13", "34 15"];
        assert_met(&met, 2, &replies);
        assert_met(&met, 1, &["33 bad", "34 bad", "35 bad", "35", "36"]);
    }
}
