//! What every call refuses first: settings, then the record; each cause alone, and settings and record together.

use std::io;

use enet::record::{place, Record};

use super::{
    case,
    layout::{self, Asked},
};
use crate::{
    frame::Frame,
    model::{Settings, STORE},
    output::Output,
    records::set,
};

/// Settings that are out of range.
const BAD: [Settings; 4] = [
    Settings { mtu: 575, ..Settings::START },
    Settings { mtu: 4_097, ..Settings::START },
    Settings { packet: 0, ..Settings::START },
    Settings { packet: (1 << 30) + 1, ..Settings::START },
];

/// What does a record of the layout below some damage.
const DAMAGES: [fn(&mut Record); 11] = [
    |record| record.numbers[place::MTU] = 575,
    |record| record.numbers[place::MTU] = 4_097,
    |record| record.numbers[place::CHANNEL_COUNT] = 9,
    |record| record.numbers[place::CHANNEL_COUNT] = 1,
    |record| record.numbers[place::WAITING] += 1,
    |record| record.sent.length = 33,
    |record| record.outgoing.push(32),
    |record| record.send_reliable.push(usize::from(record.sent.cells[0])),
    |record| record.outgoing_slots[usize::from(record.sent.cells[2])].attempts = 0,
    |record| record.outgoing_slots[usize::from(record.outgoing.cells[0])].byte ^= 1,
    |record| record.outgoing_slots[usize::from(record.send_reliable.cells[0])].channel = 2,
];

/// The call on a record that is sound, then damaged, each under settings that fit and that do not; and with no part of
/// the store, which it is not lent.
pub fn write(output: &mut Output, asked: &Frame) -> io::Result<()> {
    let sound = layout::record(&["oTo", "o", "o"], Asked { kind: 6, packet: true });
    write_settings(output, &sound, asked)?;
    for damage in DAMAGES {
        let mut damaged = sound.clone();
        damage(&mut damaged);
        case(output, &damaged, asked)?;
    }
    write_settings(output, &output.model.record.clone(), asked)?;
    case(output, &sound, asked)
}

fn write_settings(output: &mut Output, record: &Record, asked: &Frame) -> io::Result<()> {
    for settings in BAD {
        output.put(&set(&settings))?;
        case(output, record, asked)?;
    }
    for store in [0, STORE as u32] {
        output.put(&set(&Settings { store, ..Settings::START }))?;
        case(output, record, asked)?;
    }
    Ok(())
}
