//! Op 7: the send step, which the port adds: document 01's rule.

use enet::record::{place, Outgoing, Queue, Record};

use super::Group;
use crate::{frame::Frame, model::Model, random::Random};

/// The flag that asks for acknowledgement.
pub const ACKNOWLEDGE: u8 = 128;

pub const GROUP: Group = Group { name: "7", weight: 3, frame, line };

fn frame(random: &mut Random, _: u64) -> Frame {
    let list = match random.below(32) {
        0 => random.pick(&[2, 3, 256, u32::MAX]),
        _ => random.below(2) as u32,
    };
    Frame { op: 7, numbers: vec![list, random.up_to(u32::MAX)], ..Frame::default() }
}

fn line(model: &mut Model, frame: &Frame) -> String {
    let Some(queue) = Queue::numbered(frame.number(0)) else {
        return frame.bad();
    };
    if let Some(number) = model.refusal() {
        return model.reply(frame, number);
    }
    let time = frame.number(1);
    let head = model
        .own(|bench, record| bench.step(record, queue, time), |record| step(record, queue, time));
    match head {
        None => model.replies(frame, &[0, 0]),
        Some(head) => model.replies(frame, &[&[0, 1], &head.numbers()[..], &head.fields].concat()),
    }
}

/// The head of a sound record's list as it goes out, if there is one.
pub fn step(record: &mut Record, queue: Queue, time: u32) -> Option<Outgoing> {
    let slot = queue.list(record).take()?;
    let trip = record.numbers[place::ROUND_TRIP];
    let variance = record.numbers[place::ROUND_TRIP_VARIANCE];
    let head = &mut record.outgoing_slots[slot];
    head.attempts = head.attempts.saturating_add(1);
    head.sent_time = time;
    if head.timeout == 0 {
        head.timeout = trip.wrapping_add(variance.wrapping_mul(4));
    }
    let head = head.clone();
    add(record, place::PACKETS_SENT, 1);
    if head.byte & ACKNOWLEDGE != 0 {
        join(record, slot, &head);
    }
    Some(head)
}

/// An acknowledged head joins the sent ones.
fn join(record: &mut Record, slot: usize, head: &Outgoing) {
    if record.sent.length == 0 {
        record.numbers[place::NEXT_TIMEOUT] = head.sent_time.wrapping_add(head.timeout);
    }
    record.sent.push(slot);
    if head.packet {
        add(record, place::IN_TRANSIT, head.length.into());
    }
}

pub fn add(record: &mut Record, place: usize, more: u32) {
    record.numbers[place] = record.numbers[place].wrapping_add(more);
}

#[cfg(test)]
mod tests {
    use super::*;
    use crate::records::sound;
    use enet::Bench;

    #[test]
    fn the_hand_on_the_sources_nodes_does_as_document_01_says() {
        let (mut random, mut bench) = (Random::new(1), Bench::new());
        let mut met = [0; 3];
        for _ in 0..20_000 {
            let mut record = match random.below(3) {
                0 => sound::light(&mut random, &Record::fresh(1_392)),
                _ => sound::any(&mut random),
            };
            if random.once_in(2) {
                record.numbers[place::STATE] = 6;
            }
            let queue = random.pick(&[Queue::Outgoing, Queue::SendReliable]);
            let time = random.up_to(u32::MAX);
            let (head, got) = bench.step(&record, queue, time);
            let mut after = record.clone();
            assert_eq!((head, got.row()), (step(&mut after, queue, time), after.row()));
            let sent = usize::from(after.sent.length > record.sent.length);
            met[if after == record { 2 } else { sent }] += 1;
        }
        assert!(met.iter().all(|count| *count >= 1_000), "{met:?}");
    }
}
