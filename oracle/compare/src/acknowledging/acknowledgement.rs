//! Every input of a set: acknowledgements where their rules turn.

use std::io;

use enet::record::{place, Record};

use super::{
    case,
    layout::{self, Asked, Layout, CHANNEL, NUMBER},
    open, refusals,
};
use crate::{
    frame::Frame,
    ops::acknowledgement::DAY,
    output::Output,
    records::{self, frame},
};

/// Where the command is found: first, in the middle, last in sent; in outgoing; in send-reliable; behind an unsent one
/// in each of them; nowhere.
const FOUND: [Layout; 8] = [
    ["Too", "o", "o"],
    ["oTo", "o", "u"],
    ["ooT", "u", ""],
    ["oo", "oTo", "o"],
    ["oo", "o", "oTo"],
    ["o", "uT", "o"],
    ["o", "o", "uT"],
    ["oo", "o", "o"],
];

/// Also these: alone in each list, and nothing at all; twice; in two lists; on another channel; without flag 128; with 0
/// attempts; behind one that asks for no acknowledgement; behind an unsent one of outgoing, and still in send-reliable.
const MORE: [Layout; 16] = [
    ["T", "", ""],
    ["", "T", ""],
    ["", "", "T"],
    ["", "", ""],
    ["T", "", "p"],
    ["oTT", "", ""],
    ["oT", "T", "T"],
    ["o", "T", "T"],
    ["c", "c", "c"],
    ["ot", "", ""],
    ["o", "t", "t"],
    ["o", "U", "o"],
    ["o", "o", "U"],
    ["o", "pT", ""],
    ["", "", "ppT"],
    ["", "uT", "oT"],
];

/// The states, and two above the last.
const STATES: [u32; 12] = [0, 1, 2, 3, 4, 5, 6, 7, 8, 9, 10, u32::MAX];

/// Commands: those that states 2 and 7 wait for, a ping, a packet's.
const KINDS: [u8; 4] = [3, 4, 5, 6];

/// The round trip of the record, and samples below, at and above it.
const TRIP: u32 = 100;
const SAMPLES: [u32; 3] = [60, TRIP, 180];

/// The clock where the set does not vary it, and the throttle's interval.
const CLOCK: u32 = 200_000;
const INTERVAL: u32 = 5_000;

/// The throttle's epochs: none, an interval ago, one short of it.
const EPOCHS: [u32; 3] = [0, CLOCK - INTERVAL, CLOCK - INTERVAL + 1];

/// Clocks around 0, 65,535, a day, half of all and all.
const CLOCKS: [u32; 20] = [
    0,
    1,
    2,
    32_767,
    32_768,
    65_534,
    65_535,
    65_536,
    65_541,
    98_303,
    98_304,
    DAY - 1,
    DAY,
    DAY + 1,
    DAY + 65_535,
    (1 << 31) - 1,
    1 << 31,
    u32::MAX - 65_535,
    u32::MAX - 1,
    u32::MAX,
];

/// All of the set.
pub fn write(output: &mut Output) -> io::Result<()> {
    open(output)?;
    write_samples(output, &FOUND, &STATES[..11])?;
    let layouts: Vec<Layout> = FOUND.into_iter().chain(MORE).collect();
    write_states(output, &layouts, &STATES, &KINDS)?;
    write_clocks(output, &CLOCKS)?;
    write_epochs(output)?;
    write_averages(output)?;
    write_unfit(output)?;
    refusals::write(output, &asked(CLOCK, 9))?;
    output.put(&frame(15, vec![]))
}

/// A thin slice of it.
pub fn write_slice(output: &mut Output) -> io::Result<()> {
    open(output)?;
    write_samples(output, &FOUND[1..2], &[5])?;
    write_states(output, &FOUND, &[5], &[6])?;
    write_states(output, &MORE, &[6], &[6])?;
    write_states(output, &FOUND[..1], &STATES[..11], &[3, 4])?;
    write_clocks(output, &[u32::MAX])?;
    write_unfit(output)?;
    refusals::write(output, &asked(CLOCK, 9))
}

/// The acknowledgement of the command that is asked for, so long after it was sent.
fn asked(clock: u32, sample: u32) -> Frame {
    at(clock, clock.wrapping_sub(sample))
}

/// The same by the time at which it was sent, of which 16 bits come back.
fn at(clock: u32, sent: u32) -> Frame {
    frame(8, vec![CHANNEL.into(), NUMBER.into(), sent & 0xFFFF, clock])
}

/// The lists with round-trip numbers of which each can move.
fn timed(layout: &Layout, asked: Asked) -> Record {
    let mut record = layout::record(layout, asked);
    for (place, number) in [
        (place::LAST_RECEIVE, 7_777),
        (place::NEXT_TIMEOUT, 4),
        (place::EARLIEST_TIMEOUT, 3),
        (place::THROTTLE, 20),
        (place::THROTTLE_EPOCH, CLOCK - 1),
        (place::THROTTLE_INTERVAL, INTERVAL),
        (place::LAST_ROUND_TRIP, 95),
        (place::LOWEST_ROUND_TRIP, 97),
        (place::LAST_VARIANCE, 10),
        (place::HIGHEST_VARIANCE, 25),
        (place::ROUND_TRIP, TRIP),
        (place::ROUND_TRIP_VARIANCE, 20),
        (place::IN_TRANSIT, 1_000),
    ] {
        record.numbers[place] = number;
    }
    record
}

/// The places of what a case of the samples is made of: where it is found, the state, first or later, the sample, the
/// epoch; then the command and whether there is a packet, in turn.
type Place = [usize; 7];

/// Every five of the former, so that every two of all meet.
fn places(layouts: usize, states: usize) -> Vec<Place> {
    let mut places = Vec::new();
    for found in 0..layouts {
        for state in 0..states {
            for received in 0..2 {
                for sample in 0..SAMPLES.len() {
                    for epoch in 0..EPOCHS.len() {
                        let turn = places.len() + found + state + received;
                        let (kind, packet) = (turn / 2 % KINDS.len(), turn % 2);
                        places.push([found, state, received, sample, epoch, kind, packet]);
                    }
                }
            }
        }
    }
    places
}

/// Every state with every kind of sample, first or later, and every epoch.
fn write_samples(output: &mut Output, layouts: &[Layout], states: &[u32]) -> io::Result<()> {
    for place in places(layouts.len(), states.len()) {
        let [found, state, received, sample, epoch, kind, packet] = place;
        let asked_for = Asked { kind: KINDS[kind], packet: packet == 1 };
        let mut record = timed(&layouts[found], asked_for);
        record.numbers[place::STATE] = states[state];
        record.numbers[place::LAST_RECEIVE] = [0, 7_777][received];
        record.numbers[place::THROTTLE_EPOCH] = EPOCHS[epoch];
        case(output, &record, &asked(CLOCK, SAMPLES[sample]))?;
    }
    Ok(())
}

/// Every place with every state, every command that a state waits for or not, with a packet and without.
fn write_states(
    output: &mut Output,
    layouts: &[Layout],
    states: &[u32],
    kinds: &[u8],
) -> io::Result<()> {
    for layout in layouts {
        for kind in kinds {
            for packet in [false, true] {
                for state in states {
                    let mut record = timed(layout, Asked { kind: *kind, packet });
                    record.numbers[place::STATE] = *state;
                    case(output, &record, &asked(CLOCK, SAMPLES[*state as usize % 3]))?;
                }
            }
        }
    }
    Ok(())
}

/// Every clock with sent times around it and around where 16 bits turn, as the first sample and as a later one.
fn write_clocks(output: &mut Output, clocks: &[u32]) -> io::Result<()> {
    for clock in clocks {
        let mut sent = vec![0, 5, 6, 32_767, 32_768, 65_535];
        for ago in [0, 1, 2, 32_767, 32_768, 32_769] {
            sent.extend([clock.wrapping_sub(ago), clock.wrapping_add(ago)].map(|s| s & 0xFFFF));
        }
        sent.sort();
        sent.dedup();
        for sent in sent {
            for received in [0, 1] {
                let mut record = timed(&FOUND[0], Asked { kind: 6, packet: true });
                record.numbers[place::LAST_RECEIVE] = received;
                case(output, &record, &at(*clock, sent))?;
            }
        }
    }
    Ok(())
}

/// Epochs just an interval away, before and after, and where a distance turns.
fn write_epochs(output: &mut Output) -> io::Result<()> {
    for clock in [0, 1, INTERVAL, CLOCK, DAY, u32::MAX] {
        for interval in [0, 1, INTERVAL, DAY - 1, DAY, u32::MAX] {
            for away in [interval, interval.wrapping_sub(1), interval.wrapping_add(1), DAY, DAY - 1]
            {
                for epoch in [clock.wrapping_sub(away), clock.wrapping_add(away)] {
                    let mut record = timed(&FOUND[7], Asked { kind: 6, packet: true });
                    record.numbers[place::THROTTLE_EPOCH] = epoch;
                    record.numbers[place::THROTTLE_INTERVAL] = interval;
                    case(output, &record, &asked(clock, 70))?;
                }
            }
        }
    }
    Ok(())
}

/// Round trips and variances from end to end, where sums count past 2^32 and quarters and eighths are cut.
fn write_averages(output: &mut Output) -> io::Result<()> {
    let mut turn = 0;
    for trip in [0, 1, 8, 9, 100, 1 << 31, u32::MAX - 1, u32::MAX] {
        for variance in [0, 1, 3, 4, 5, 1 << 31, u32::MAX] {
            for sample in [1, 2, 8, 9, 107, 108, 32_768] {
                let (lowest, highest) = [(u32::MAX, 0), (0, u32::MAX), (trip, variance)][turn % 3];
                let mut record = timed(&FOUND[7], Asked { kind: 6, packet: true });
                record.numbers[place::ROUND_TRIP] = trip;
                record.numbers[place::ROUND_TRIP_VARIANCE] = variance;
                record.numbers[place::LOWEST_ROUND_TRIP] = lowest;
                record.numbers[place::HIGHEST_VARIANCE] = highest;
                record.numbers[place::THROTTLE_EPOCH] = sample % 2;
                case(output, &record, &asked(CLOCK, sample))?;
                turn += 1;
            }
        }
    }
    Ok(())
}

/// Numbers that do not fit, or just do; missing ones read as 0, further ones are ignored.
fn write_unfit(output: &mut Output) -> io::Result<()> {
    records::make(output, &timed(&FOUND[0], Asked { kind: 6, packet: true }))?;
    for (place, values) in [
        (0, [255, 256, u32::MAX]),
        (1, [65_535, 65_536, u32::MAX]),
        (2, [65_535, 65_536, u32::MAX]),
    ] {
        for value in values {
            let mut asked = asked(CLOCK, 9);
            asked.numbers[place] = value;
            output.put(&asked)?;
        }
    }
    for count in 0..=4 {
        let mut asked = asked(CLOCK, 9);
        asked.numbers.truncate(count);
        output.put(&asked)?;
    }
    let mut asked = asked(CLOCK, 9);
    asked.numbers.push(7);
    output.put(&asked)
}

#[cfg(test)]
mod tests {
    use super::*;
    use crate::acknowledging::assert_meets;
    use std::collections::BTreeSet;

    #[test]
    fn every_two_of_what_a_sample_is_made_of_meet() {
        let many = [FOUND.len(), 11, 2, SAMPLES.len(), EPOCHS.len(), KINDS.len(), 2];
        let places = places(many[0], many[1]);
        for (one, other) in (0..7).flat_map(|one| (0..one).map(move |other| (one, other))) {
            let met: BTreeSet<_> = places.iter().map(|place| (place[one], place[other])).collect();
            assert_eq!(met.len(), many[one] * many[other], "{one} and {other}");
        }
    }

    #[test]
    fn the_set_and_its_slice_meet_every_reply() {
        let replies =
            ["8 0 0", "8 0 1", "8 0 2", "8 0 3", "8 0 4", "8 10", "8 11", "8 13", "8 bad"];
        assert_meets(write, &replies, 60_000);
        assert_meets(write_slice, &replies, 2_000);
    }
}
