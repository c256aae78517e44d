//! Scripts about sending: random sequences of ping, send, setup and send step; every input of a set; rules.

pub mod rules;
pub mod sets;

use std::io;

use enet::record::place;

use crate::{
    frame::Frame,
    mix::Mix,
    model::{Model, CONNECTED},
    ops::{self, send, setup},
    output::Output,
    random::Random,
    records::{self, harm, sound, PACKET},
    script::miscount,
    sequence,
};

/// The largest maximum packet size.
const LARGEST: u32 = 1 << 30;

/// What counts on in a send or a send step, and so is set to its ends.
const COUNTERS: &[usize] = &[
    place::OUTGOING_TOTAL,
    place::NEXT_TIMEOUT,
    place::PACKETS_SENT,
    place::ROUND_TRIP,
    place::ROUND_TRIP_VARIANCE,
    place::IN_TRANSIT,
    place::RELIABLE_NUMBER,
    place::OUTGOING_GROUP,
    place::HOST_COUNT,
];

/// A script of so many calls of ops 4 to 7, with acknowledgements between where the mix has them, in sequences
/// that start from random records.
pub fn write(output: &mut Output, seed: u64, count: u64, mix: Mix) -> io::Result<()> {
    let open = |output: &mut Output, random: &mut Random| {
        start(output, random)?;
        Ok((mix, 8 + random.below(48)))
    };
    sequence::write(output, seed, count, open, call)
}

/// Settings that fit, and a record to start from: mostly a new one, since it takes few frames.
fn start(output: &mut Output, random: &mut Random) -> io::Result<()> {
    let any = 1 + random.up_to(LARGEST - 1);
    let packet = random.pick(&[PACKET, PACKET, LARGEST, any]);
    output.put(&settings(random, packet))?;
    let mut record = match random.below(64) {
        0 => harm::any(random),
        1..=2 => sound::any(random),
        3..=8 => sound::light(random, &output.model.record),
        _ => return begin(output, random),
    };
    if !random.once_in(8) {
        record.numbers[place::STATE] = CONNECTED;
    }
    records::make(output, &record)
}

/// Settings of this maximum packet size, with a checksum or without.
fn settings(random: &mut Random, packet: u32) -> Frame {
    let mut frame = records::settings(1_392, packet);
    frame.numbers[3] = random.below(2) as u32;
    frame
}

/// A new record with open channels, mostly connected, and some of its counters anywhere.
fn begin(output: &mut Output, random: &mut Random) -> io::Result<()> {
    output.put(&records::frame(1, vec![]))?;
    let any = 576 + random.up_to(4_096 - 576);
    let mtu = random.pick(&[576, 1_051, 1_392, 4_096, any]);
    let channels = 1 + random.up_to(7);
    output.put(&records::frame(2, vec![mtu, channels]))?;
    let state = if random.once_in(16) { random.up_to(9) } else { CONNECTED };
    output.put(&records::frame(3, vec![state]))?;
    for _ in 0..random.below(3) {
        let (channel, which) = (random.up_to(channels - 1), random.below(2) as u32);
        output.put(&records::frame(22, vec![channel, which, edge(random, 65_535)]))?;
    }
    for _ in 0..random.below(4) {
        let place = random.pick(COUNTERS);
        let value = edge(random, place::limit(place));
        output.put(&records::frame(20, vec![place as u32, value]))?;
    }
    Ok(())
}

/// A number close below the limit, so that some calls count past it, or any.
fn edge(random: &mut Random, limit: u32) -> u32 {
    match random.below(3) {
        0 => random.up_to(limit),
        _ => limit - random.below(6) as u32,
    }
}

/// A call, now and then with numbers missing, or under settings that refuse it.
fn call(mix: &mut Mix, output: &mut Output, random: &mut Random) -> io::Result<()> {
    let mut frame = match mix.more(&output.model, random, 3) {
        Some(frame) => frame,
        None => drawn(&output.model, random),
    };
    if random.once_in(48) {
        miscount(&mut frame, random);
    }
    let bad = [(575, PACKET), (4_097, PACKET), (576, 0), (576, LARGEST + 1)];
    sequence::ask(output, random, &frame, 96, &bad)?;
    sequence::look(output, random)
}

/// A frame of ops 4 to 7 that suits the record.
pub fn drawn(model: &Model, random: &mut Random) -> Frame {
    let numbers = &model.record.numbers;
    let count = numbers[place::CHANNEL_COUNT].min(255);
    match random.below(16) {
        0 => records::frame(4, vec![]),
        1..=4 => {
            // A damaged record may have any MTU.
            let mtu = numbers[place::MTU].clamp(576, 4_096);
            send::drawn(random, send::fragment(mtu, model.settings.checksum), count)
        }
        5..=8 => setup::drawn(random, count),
        _ => (ops::named("7").expect("the group is known").frame)(random, 0),
    }
}

#[cfg(test)]
mod tests {
    use super::*;
    use crate::met::{assert_met, replies};

    #[test]
    fn so_many_calls_are_made_and_every_reply_is_met() {
        let met = replies(|output| write(output, 1, 40_000, Mix::All));
        let calls = ["4 ", "5 ", "6 ", "7 ", "8 ", "9 ", "14 "];
        let made = |(reply, _): &(&String, &usize)| calls.iter().any(|op| reply.starts_with(op));
        assert_eq!(met.iter().filter(made).map(|(_, count)| count).sum::<usize>(), 40_000);
        let replies = [
            "4 0", "4 1", "4 5", "4 11", "4 13", "5 0", "5 1", "5 2", "5 3", "5 4", "5 5", "5 11",
            "5 13", "5 bad", "6 0", "6 2", "6 5", "6 9", "6 11", "6 13", "6 bad", "7 0 0", "7 0 1",
            "7 11", "7 13", "7 bad", "8 0 1", "8 11", "8 13", "8 bad", "9 0 1", "9 11", "9 13",
            "14 0 1", "14 11", "14 13",
        ];
        assert_met(&met, 10, &replies);
    }
}
