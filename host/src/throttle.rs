//! `lyn_throttle` and `lyn_turn` against `enet_peer_throttle`.

use enet::{Bench, Throttle};

use crate::{
    clock::{least, time},
    ours,
    random::Random,
    tally::Tally,
};

const EDGES: [u32; 9] = [0, 1, 2, 32, 100, 0x7fff_ffff, 0x8000_0000, u32::MAX - 1, u32::MAX];

/// Small numbers lie close together, so that every test is met on both sides.
fn number(random: &mut Random) -> u32 {
    match random.below(4) {
        0 => random.pick(&EDGES),
        1 => random.below(8) as u32,
        2 => random.up_to(300),
        _ => random.number(),
    }
}

fn input(random: &mut Random) -> (Throttle, u32) {
    let t = Throttle {
        value: number(random),
        limit: number(random),
        acceleration: number(random),
        deceleration: number(random),
        last: number(random),
        variance: number(random),
    };
    let high = t.last.wrapping_add(t.variance.wrapping_mul(2));
    let sample = match random.below(4) {
        0 => t.last.wrapping_add(random.below(3) as u32).wrapping_sub(1),
        1 => high.wrapping_add(random.below(3) as u32).wrapping_sub(1),
        _ => number(random),
    };
    (t, sample)
}

/// By value, and the value put where the numbers lie.
fn by_value(t: &mut Throttle, sample: u32) -> u32 {
    let (value, turn) = ours::throttle(*t, sample);
    t.value = value;
    turn
}

/// The source's peer is given the numbers and altered in place.
fn source(bench: &mut Bench, t: &mut Throttle, sample: u32) -> u32 {
    let (after, turn) = bench.throttle(*t, sample);
    *t = after;
    if turn < 0 {
        2
    } else {
        turn as u32
    }
}

/// The numbers after a call, and the turn.
fn after(
    mut t: Throttle,
    sample: u32,
    call: impl FnOnce(&mut Throttle, u32) -> u32,
) -> (Throttle, u32) {
    let turn = call(&mut t, sample);
    (t, turn)
}

/// Nanoseconds of a call on numbers that lie in place, anew each round.
fn timed(inputs: &[(Throttle, u32)], mut call: impl FnMut(&mut Throttle, u32) -> u32) -> f64 {
    let places: Vec<usize> = (0..inputs.len()).collect();
    least(|| {
        let mut lie = inputs.to_vec();
        time(&places, |&at| {
            let (t, sample) = &mut lie[at];
            call(t, *sample)
        })
    })
}

/// Both forms on the same inputs.
pub fn compare(bench: &mut Bench, random: &mut Random, more: u64) -> u64 {
    let (mut valued, mut lent) = (Tally::default(), Tally::default());
    for _ in 0..4 * more {
        let (t, sample) = input(random);
        let theirs = after(t, sample, |t, sample| source(bench, t, sample));
        valued.compare(&(t, sample), after(t, sample, by_value), theirs);
        lent.compare(&(t, sample), after(t, sample, ours::turn), theirs);
    }
    let inputs: Vec<_> = (0..100_000).map(|_| input(random)).collect();
    let theirs = timed(&inputs, |t, sample| source(bench, t, sample));
    let [value, lend] = [timed(&inputs, by_value), timed(&inputs, ours::turn)];
    let differences =
        valued.close("throttle", value, theirs) + lent.close("throttle, lent", lend, theirs);
    println!("throttle: lent {lend:.1} ns, by value {value:.1} ns, ratio {:.2}", lend / value);
    differences
}
