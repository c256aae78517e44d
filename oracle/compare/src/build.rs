//! The frames of ops 20 to 24 that make a record.

use enet::record::{List, Outgoing, Record, INCOMING, WORDS};

use crate::frame::Frame;

/// The places of the first word and of the first word of marks in op 20, and the number of the first channel's list in
/// op 21.
pub const WORDS_FROM: usize = 64;
pub const MARKS_FROM: usize = WORDS_FROM + WORDS;
pub const CHANNELS_FROM: usize = 8;

/// The frames that make the one record out of the other. In slots, lists and channels all that counts is
/// written, since a call may have left anything there while it did not count; the rest where it differs.
pub fn frames(from: &Record, to: &Record) -> Vec<Frame> {
    let mut frames = numbers(from, to);
    let mains = [&to.sent, &to.send_reliable, &to.outgoing, &to.dispatched];
    let olds = [&from.sent, &from.send_reliable, &from.outgoing, &from.dispatched];
    for (which, (old, new)) in olds.into_iter().zip(mains).enumerate() {
        frames.extend(list(which, old, new, true));
    }
    for (which, new) in to.channels.iter().enumerate() {
        let (old, counts) = (&from.channels[which], which < to.open_channels().len());
        for (place, value) in new.numbers.into_iter().enumerate() {
            if counts || old.numbers[place] != value {
                frames.push(frame(22, [which as u32, place as u32, value.into()]));
            }
        }
        frames.extend(list(CHANNELS_FROM + which, &old.list, &new.list, counts));
    }
    frames.extend(outgoing(from, to));
    frames.extend(incoming(from, to));
    frames
}

/// The same where nothing lies between the two but numbers, outgoing lists and outgoing slots: of these what counts
/// in both and is the same is left out.
pub fn outgoing_frames(from: &Record, to: &Record) -> Vec<Frame> {
    let mut frames = numbers(from, to);
    let lists = [(&from.sent, &to.sent), (&from.send_reliable, &to.send_reliable)];
    for (which, (old, new)) in lists.into_iter().chain([(&from.outgoing, &to.outgoing)]).enumerate()
    {
        if (old.length, old.items()) != (new.length, new.items()) {
            frames.extend(list(which, old, new, true));
        }
    }
    let used = from.used_outgoing();
    for slot in to.used_outgoing() {
        let new = &to.outgoing_slots[slot];
        if !used.contains(&slot) || from.outgoing_slots[slot] != *new {
            frames.push(set_outgoing(slot, new));
        }
    }
    frames
}

fn frame<const N: usize>(op: u8, numbers: [u32; N]) -> Frame {
    Frame { op, numbers: numbers.to_vec(), ..Frame::default() }
}

/// The frames that make the single numbers, the words and the marks of the one record those of the other.
pub fn numbers(from: &Record, to: &Record) -> Vec<Frame> {
    let old = from.numbers.iter().chain(&from.words).chain(&from.marks);
    let new = to.numbers.iter().chain(&to.words).chain(&to.marks);
    let places = (0..from.numbers.len()).chain(WORDS_FROM..);
    places
        .zip(old.zip(new))
        .filter(|(_, (old, new))| old != new)
        .map(|(place, (_, new))| frame(20, [place as u32, *new]))
        .collect()
}

fn list(which: usize, old: &List, new: &List, counts: bool) -> Vec<Frame> {
    let set = |cell: usize, value: u16| frame(21, [which as u32, cell as u32, value.into()]);
    let mut frames = Vec::new();
    if counts || old.length != new.length {
        frames.push(set(0, new.length));
    }
    for (cell, &value) in new.cells.iter().enumerate() {
        if (counts && cell < new.items().len()) || old.cells[cell] != value {
            frames.push(set(cell + 1, value));
        }
    }
    frames
}

/// A slot as made new cannot be set; none counts.
fn outgoing(from: &Record, to: &Record) -> Vec<Frame> {
    let used = to.used_outgoing();
    let slots = to.outgoing_slots.iter().enumerate();
    slots
        .filter(|(slot, new)| {
            used.contains(slot) || (new.kind != 0 && from.outgoing_slots[*slot] != **new)
        })
        .map(|(slot, new)| set_outgoing(slot, new))
        .collect()
}

/// The frame that sets this slot.
pub fn set_outgoing(slot: usize, to: &Outgoing) -> Frame {
    let mut frame = frame(23, [slot as u32]);
    frame.numbers.extend(to.numbers());
    frame.numbers.push(to.kind.into());
    frame.numbers.extend(&to.fields);
    frame
}

fn incoming(from: &Record, to: &Record) -> Vec<Frame> {
    let used = to.used_incoming();
    (0..INCOMING)
        .filter(|slot| {
            used.contains(slot) || from.incoming_slots[*slot] != to.incoming_slots[*slot]
        })
        .map(|slot| {
            let mut frame = frame(24, [slot as u32]);
            frame.numbers.extend(to.incoming_slots[slot].numbers());
            frame
        })
        .collect()
}

#[cfg(test)]
mod tests {
    use super::*;
    use crate::{
        acknowledging,
        model::Model,
        ops,
        random::Random,
        records::{harm, sound},
    };

    #[test]
    fn the_frames_make_the_record_from_any_other() {
        let (mut random, mut model) = (Random::new(1), Model::new());
        for turn in 0..300 {
            let record = match turn % 3 {
                0 => harm::any(&mut random),
                _ => sound::any(&mut random),
            };
            for frame in frames(&model.record, &record) {
                assert_eq!(ops::answer(&mut model, &frame), frame.op.to_string());
            }
            assert_eq!(model.record.row(), record.row());
            assert!(frames(&model.record, &record).iter().all(|frame| frame.op > 20));
        }
    }

    #[test]
    fn few_frames_make_the_record_after_calls_that_move_commands() {
        let (mut random, mut model) = (Random::new(1), Model::new());
        for _ in 0..300 {
            let record = sound::rich(&mut random);
            model.record = record.clone();
            for _ in 0..random.below(4) {
                let asked = acknowledging::drawn(&model, &mut random);
                if [8, 9, 14].contains(&asked.op) {
                    ops::answer(&mut model, &asked);
                }
            }
            let frames = outgoing_frames(&model.record, &record);
            for frame in &frames {
                ops::answer(&mut model, frame);
            }
            assert_eq!(model.record.row(), record.row());
            assert!(outgoing_frames(&model.record, &record).is_empty());
        }
    }
}
