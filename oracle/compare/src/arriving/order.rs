//! The order of an arrival's tests: every set of causes together, and every byte, channel and state.

use std::io;

use enet::record::{place, Record};

use crate::{
    frame::Frame,
    model::Settings,
    output::Output,
    random::Random,
    records::{self, set},
};

/// What gives a case one cause to be refused or passed over.
pub type Cause = fn(&mut Case);

/// In the order in which they are asked.
pub const CAUSES: &[Cause] = &[
    |case| case.settings.store -= 1,
    |case| case.settings.mtu = 575,
    |case| case.record.numbers[place::WAITING] += 1,
    |case| case.asked.numbers[0] ^= 15,
    |case| case.record.numbers[place::STATE] = 7,
    |case| case.asked.bytes.truncate(2),
    |case| case.record.numbers[place::STATE] = 6,
    |case| case.settings.waiting = 0,
];

/// A call, the record that it is made on, and its settings.
#[derive(Clone)]
pub struct Case {
    pub settings: Settings,
    pub record: Record,
    pub asked: Frame,
}

/// Every set of these causes, for an arrival of three bytes that this record stores.
pub fn write(
    output: &mut Output,
    record: &Record,
    asked: &Frame,
    causes: &[Cause],
) -> io::Result<()> {
    write_causes(output, record, asked, causes, 0..1 << causes.len())
}

/// Every cause alone.
pub fn write_alone(
    output: &mut Output,
    record: &Record,
    asked: &Frame,
    causes: &[Cause],
) -> io::Result<()> {
    write_causes(output, record, asked, causes, (0..causes.len()).map(|at| 1 << at))
}

/// The causes of each of these sets, in which a bit stands for one, and last none.
fn write_causes(
    output: &mut Output,
    record: &Record,
    asked: &Frame,
    causes: &[Cause],
    sets: impl Iterator<Item = u32>,
) -> io::Result<()> {
    let sound = Case { settings: Settings::START, record: record.clone(), asked: asked.clone() };
    for set in sets {
        let mut case = sound.clone();
        // The later ones first, since two of them set the state.
        for (_, cause) in causes.iter().enumerate().rev().filter(|(at, _)| set >> at & 1 == 1) {
            cause(&mut case);
        }
        put(output, &case)?;
    }
    put(output, &sound)
}

/// Every byte, and every channel with every state.
pub fn write_each(
    output: &mut Output,
    random: &mut Random,
    record: &Record,
    asked: &Frame,
) -> io::Result<()> {
    let sound = Case { settings: Settings::START, record: record.clone(), asked: asked.clone() };
    for byte in 0..=256 {
        let mut case = sound.clone();
        case.asked.numbers[0] = byte;
        put(output, &case)?;
    }
    let count = record.numbers[place::CHANNEL_COUNT];
    for state in (0..=10).chain([random.number()]) {
        for channel in [0, count - 1, count, 8, 255, 256] {
            let mut case = sound.clone();
            case.record.numbers[place::STATE] = state;
            case.asked.numbers[1] = channel;
            put(output, &case)?;
        }
    }
    Ok(())
}

fn put(output: &mut Output, case: &Case) -> io::Result<()> {
    output.put(&set(&case.settings))?;
    records::make(output, &case.record)?;
    output.put(&case.asked)
}
