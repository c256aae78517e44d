//! Op 21: setting the length or a cell of a list.

use enet::record::{List, Record, INCOMING, OUTGOING};

use super::Group;
use crate::{build::CHANNELS_FROM, frame::Frame, model::Model, random::Random};

/// The main lists and the channels', the former twice as often.
const LISTS: &[u32] = &[0, 1, 2, 3, 0, 1, 2, 3, 8, 9, 10, 11, 12, 13, 14, 15];

pub const GROUP: Group = Group { name: "21", weight: 4, frame, line };

fn frame(random: &mut Random, turn: u64) -> Frame {
    let list = match turn % 16 {
        0 => random.pick(&[4, 7, 16, 256, u32::MAX]),
        _ => random.pick(LISTS),
    };
    let pool = if list < 3 { OUTGOING } else { INCOMING } as u32;
    let cell = match random.below(8) {
        0 => random.pick(&[pool + 1, 256, u32::MAX]),
        1..=3 => 0,
        _ => random.up_to(pool),
    };
    let value = match random.below(4) {
        0 => random.about(65_535),
        _ => random.up_to(pool - 1),
    };
    Frame { op: 21, numbers: vec![list, cell, value], ..Frame::default() }
}

fn line(model: &mut Model, frame: &Frame) -> String {
    match set(&mut model.record, frame) {
        Some(()) => frame.line(&[]),
        None => frame.bad(),
    }
}

/// An outgoing slot as made new that the frame would bring into the row. SCRIPT.md leaves open what
/// command such a slot holds.
pub fn shown(record: &Record, frame: &Frame) -> Option<usize> {
    if frame.op != 21 {
        return None;
    }
    let mut after = record.clone();
    set(&mut after, frame)?;
    after.used_outgoing().into_iter().find(|&slot| after.outgoing_slots[slot].kind == 0)
}

/// Sets what the frame says, if there is such a place and the value fits.
fn set(record: &mut Record, frame: &Frame) -> Option<()> {
    let list = list(record, frame.number(0) as usize)?;
    let value = u16::try_from(frame.number(2)).ok()?;
    match frame.number(1) as usize {
        0 => list.length = value,
        cell => *list.cells.get_mut(cell - 1)? = value,
    }
    Some(())
}

fn list(record: &mut Record, which: usize) -> Option<&mut List> {
    match which {
        0 => Some(&mut record.sent),
        1 => Some(&mut record.send_reliable),
        2 => Some(&mut record.outgoing),
        3 => Some(&mut record.dispatched),
        _ => {
            let channel = which.checked_sub(CHANNELS_FROM)?;
            record.channels.get_mut(channel).map(|channel| &mut channel.list)
        }
    }
}
