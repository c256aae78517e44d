//! Every input of a set: the throttle where its tests turn.

use std::io;

use enet::record::place;

use super::{
    case,
    layout::{self, Asked},
    open, refusals,
};
use crate::{
    ops::throttle::of,
    output::Output,
    records::{frame, sound},
};

/// Last round trips with variances below, at and above them, and where the sum counts past 2^32.
const TRIPS: [(u32, u32); 17] = [
    (0, 0),
    (0, 1),
    (1, 0),
    (1, 1),
    (2, 1),
    (100, 0),
    (100, 10),
    (100, 99),
    (100, 100),
    (100, 101),
    (100, u32::MAX),
    (1 << 31, (1 << 31) - 1),
    ((1 << 31) + 1, 1 << 31),
    (u32::MAX - 1, 1),
    (u32::MAX, 0),
    (u32::MAX, 1 << 30),
    (u32::MAX, u32::MAX - 1),
];

/// The value, the limit, the acceleration and the deceleration.
const VALUES: [[u32; 4]; 14] = [
    [32, 32, 2, 2],
    [30, 32, 2, 2],
    [31, 32, 2, 2],
    [29, 32, 2, 2],
    [0, 32, 2, 2],
    [1, 32, 2, 2],
    [2, 32, 2, 2],
    [3, 32, 2, 2],
    [40, 32, 2, 2],
    [5, 0, 0, 0],
    [u32::MAX, u32::MAX, 1, u32::MAX],
    [u32::MAX - 1, 32, 3, u32::MAX - 1],
    [u32::MAX, 32, u32::MAX, u32::MAX - 1],
    [7, u32::MAX, u32::MAX, 8],
];

/// All of the set.
pub fn write(output: &mut Output) -> io::Result<()> {
    open(output)?;
    write_each(output, &TRIPS, &VALUES)?;
    refusals::write(output, &of(121))?;
    output.put(&frame(15, vec![]))
}

/// A thin slice of it.
pub fn write_slice(output: &mut Output) -> io::Result<()> {
    open(output)?;
    write_each(output, &[TRIPS[3], TRIPS[6], TRIPS[12]], &[VALUES[0], VALUES[1], VALUES[10]])?;
    refusals::write(output, &of(121))
}

/// Every two of them with samples around the last round trip and around that and twice the variance.
fn write_each(output: &mut Output, trips: &[(u32, u32)], values: &[[u32; 4]]) -> io::Result<()> {
    let mut record = layout::record(&["oo", "o", "o"], Asked { kind: 6, packet: true });
    sound::settle(&mut record);
    for numbers in values {
        for (place, number) in [
            place::THROTTLE,
            place::THROTTLE_LIMIT,
            place::THROTTLE_ACCELERATION,
            place::THROTTLE_DECELERATION,
        ]
        .into_iter()
        .zip(numbers)
        {
            record.numbers[place] = *number;
        }
        for (last, variance) in trips {
            record.numbers[place::LAST_ROUND_TRIP] = *last;
            record.numbers[place::LAST_VARIANCE] = *variance;
            for sample in samples(*last, *variance) {
                case(output, &record, &of(sample))?;
            }
        }
    }
    Ok(())
}

fn samples(last: u32, variance: u32) -> Vec<u32> {
    let sum = last.wrapping_add(variance.wrapping_mul(2));
    let mut samples = vec![0, 1, u32::MAX];
    for turn in [last, sum] {
        samples.extend([turn.wrapping_sub(1), turn, turn.wrapping_add(1)]);
    }
    samples.sort();
    samples.dedup();
    samples
}

#[cfg(test)]
mod tests {
    use super::*;
    use crate::acknowledging::assert_meets;

    #[test]
    fn the_set_and_its_slice_meet_every_reply() {
        let replies = ["14 0 0", "14 0 1", "14 0 2", "14 11", "14 13"];
        assert_meets(write, &replies, 60_000);
        assert_meets(write_slice, &replies, 600);
    }
}
