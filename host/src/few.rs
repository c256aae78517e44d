//! The time of a call that changes what it is lent: what it changed is put back before the next, outside the clock.

use crate::{
    clock::{least, time},
    TURNS,
};

/// So many have their turn at a time, between two looks at the clock: more would not stay in the nearest cache.
pub const FEW: usize = 4;

pub const PLACES: [usize; FEW] = [0, 1, 2, 3];

/// Nanoseconds of a turn, a few of which are timed at once. The clock is looked at after every few calls: its own time is
/// taken off.
pub fn timed(few: impl FnMut() -> f64) -> f64 {
    turns(few) - turns(|| time(&PLACES, |_| ()))
}

/// Nanoseconds of a call that is lent this, and how many of its answers are not this one.
pub fn lent<T: Copy>(start: &T, call: fn(&mut T) -> u32, answer: u32) -> (f64, u32) {
    let (mut places, mut wrong) = (Box::new(PLACES.map(|_| *start)), 0);
    let time = timed(|| {
        *places = PLACES.map(|_| *start);
        time(&PLACES, |place| wrong += u32::from(call(&mut places[*place]) != answer))
    });
    (time, wrong)
}

fn turns(mut few: impl FnMut() -> f64) -> f64 {
    let times = TURNS / FEW;
    least(|| (0..times).map(|_| few()).sum::<f64>() / times as f64)
}
