//! The near side's caller: what it asks of its peer by itself, and what it does about an answer.

use enet::record::{place, Record};

use crate::{
    frame::Frame,
    model::{Model, ACKNOWLEDGING_CONNECT, CONNECTED, DISCONNECTING, DISCONNECT_LATER},
    ops::{send::fragment, setup, throttle, timeouts},
    random::Random,
    records::frame,
};

/// A reset, a begin and a connect: by command 3, which has to be acknowledged, or at once.
pub fn connect(random: &mut Random) -> Vec<Frame> {
    let mtu = random.pick(&[576, 1_392, 4_096]);
    let mut frames = vec![frame(1, vec![]), frame(2, vec![mtu, random.pick(&[1, 2, 3, 8])])];
    if random.once_in(2) {
        frames.push(frame(3, vec![CONNECTED]));
    } else {
        frames.push(setup::of(random, 131, 255, 3));
        frames.push(frame(3, vec![ACKNOWLEDGING_CONNECT]));
    }
    frames
}

/// A disconnect: by command 4, which has to be acknowledged.
fn disconnect(random: &mut Random) -> Vec<Frame> {
    vec![setup::of(random, 132, 255, 4), frame(3, vec![DISCONNECTING])]
}

/// What a caller does about this answer before all else.
pub fn follow(random: &mut Random, line: &str) -> Vec<Frame> {
    let answered = |answer: &str| line.starts_with(answer);
    if answered("8 0 2 ") {
        vec![frame(3, vec![CONNECTED])]
    } else if answered("8 0 4 ") {
        disconnect(random)
    } else if answered("8 0 3 ") || answered("9 0 3 ") {
        connect(random)
    } else {
        vec![]
    }
}

/// Out of so many of its acts some change the connection.
pub const PATIENCE: u64 = 2_048;

/// What it does by itself; rarely that takes several calls.
pub fn acts(model: &Model, random: &mut Random, clock: u32, patience: u64) -> Vec<Frame> {
    match random.below(patience) {
        0..=2 => connect(random),
        3..=5 => disconnect(random),
        6..=13 => vec![frame(3, vec![DISCONNECT_LATER])],
        // Nothing else leads out of some states.
        14..=17 => vec![frame(3, vec![CONNECTED])],
        _ => vec![one(model, random, clock)],
    }
}

fn one(model: &Model, random: &mut Random, clock: u32) -> Frame {
    let record = &model.record;
    let channels = record.numbers[place::CHANNEL_COUNT].clamp(1, 8);
    // The more there is to take out, the sooner it is taken.
    if random.below(10) < record.dispatched.length.into() {
        return frame(13, vec![]);
    }
    let busy = record.free_outgoing() < 8;
    match random.below(64) {
        0..=15 if !busy => send(model, random),
        0..=31 => step(record, random, clock),
        32..=35 if !busy => send(model, random),
        32..=45 => timeouts::at(clock),
        46..=49 => frame(4, vec![]),
        50..=52 => setup::drawn(random, channels),
        53..=56 => frame(13, vec![]),
        57..=59 => frame(12, vec![random.below(channels.into()) as u32]),
        60 => throttle::drawn(random, record),
        61 => throttle::of(random.below(400) as u32),
        _ => step(record, random, clock),
    }
}

/// A send step now, mostly of the list in which something waits.
fn step(record: &Record, random: &mut Random, clock: u32) -> Frame {
    let list = match (record.outgoing.length, record.send_reliable.length) {
        (0, 1..) => 1,
        (1.., 0) => 0,
        _ => random.below(2) as u32,
    };
    frame(7, vec![list, clock])
}

/// A send of one piece or a few, mostly reliable.
fn send(model: &Model, random: &mut Random) -> Frame {
    let numbers = &model.record.numbers;
    let channels = numbers[place::CHANNEL_COUNT].clamp(1, 8);
    let piece = fragment(numbers[place::MTU].clamp(576, 4_096), model.settings.checksum);
    let length = match random.below(8) {
        0 => random.below(4 * u64::from(piece)) as u32,
        1 => piece + random.below(2) as u32,
        _ => random.below(100) as u32,
    };
    let flags = random.pick(&[0, 1, 1, 1, 1, 1, 2, 2, 8]);
    frame(5, vec![random.below(channels.into()) as u32, length, flags])
}
