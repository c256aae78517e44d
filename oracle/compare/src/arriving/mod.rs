//! Scripts about what comes in: random sequences, and every input of a set.

pub mod kept;
pub mod order;
pub mod payload;
mod reliable;
mod sequences;
mod sets;
pub mod taken;
mod unsequenced;

use std::io;

use enet::record::{place, Record};

use crate::{
    frame::Frame,
    mix::Mix,
    model::{Settings, CELL, CONNECTED, STORE},
    ops::store::whole_second,
    output::Output,
    records::{frame, set},
    sending::sets::Set,
};

pub use sequences::write;

/// The sets by their names on the command line.
pub const NAMES: [&str; 4] = ["dispatch", "receive", "unsequenced", "reliable"];

/// A set by its name on the command line.
pub fn named(name: &str) -> Option<Set> {
    match name {
        "dispatch" => Some(sets::write_dispatch),
        "receive" => Some(sets::write_receive),
        "unsequenced" => Some(unsequenced::write),
        "reliable" => Some(reliable::write),
        _ => None,
    }
}

/// What the repository stores of arrivals: so many calls in sequences, and a thin slice of each set.
pub fn write_arrivals(output: &mut Output, seed: u64, count: u64) -> io::Result<()> {
    sequences::write(output, seed, count, Mix::Stored)?;
    unsequenced::write_slice(output)?;
    reliable::write_slice(output)
}

/// The whole store's hash.
pub fn whole_store() -> Frame {
    frame(16, vec![0, STORE as u32])
}

/// What is looked at after this line: the whole store's hash after a stored arrival and a receive, the second store's after
/// a stored piece and a receive of a block, and the bytes that a receive names.
pub fn looks(line: &str) -> Vec<Frame> {
    let mut looks = Vec::new();
    if ["10 0 1 ", "11 0 1 ", "13 0 "].iter().any(|start| line.starts_with(start)) {
        looks.push(whole_store());
    }
    if ["18 0 1 ", "13 0 2 "].iter().any(|start| line.starts_with(start)) {
        looks.push(whole_second());
    }
    let taken = |kind: &str| {
        let taken = line.strip_prefix(kind)?;
        let mut words = taken.split(' ').map(|word| word.parse::<u32>());
        let (Some(Ok(cell)), Some(Ok(length))) = (words.nth(1), words.next()) else {
            unreachable!("a receive names channel, cell and length: {line}");
        };
        Some((cell, length.min(48)))
    };
    if let Some((cell, length)) = taken("13 0 1 ") {
        looks.push(frame(17, vec![cell * CELL as u32, length]));
    }
    if let Some((_, length)) = taken("13 0 2 ") {
        looks.push(frame(17, vec![0, length, 1]));
    }
    looks
}

/// Asks, and answers whether a packet was stored.
fn stores(output: &mut Output, asked: &Frame) -> io::Result<bool> {
    let line = output.ask(asked)?;
    Ok([10, 11].contains(&asked.op) && line.starts_with(&format!("{} 0 1 ", asked.op)))
}

/// A connected record of so many channels, as made new.
pub fn connected(channels: u32) -> Record {
    let mut record = Record::fresh(1_392);
    record.numbers[place::STATE] = CONNECTED;
    record.numbers[place::CHANNEL_COUNT] = channels;
    record
}

/// The settings of the start.
pub fn start(output: &mut Output) -> io::Result<()> {
    output.put(&set(&Settings::START))
}
