//! The time of a call.

use std::time::Instant;

/// Nanoseconds a call, over all inputs.
pub fn time<I, O>(inputs: &[I], mut call: impl FnMut(&I) -> O) -> f64 {
    let start = Instant::now();
    for input in inputs {
        std::hint::black_box(call(std::hint::black_box(input)));
    }
    start.elapsed().as_nanos() as f64 / inputs.len() as f64
}

const ROUNDS: usize = 20;

/// The least of some rounds: other work on the machine can only add.
pub fn least(mut round: impl FnMut() -> f64) -> f64 {
    (0..ROUNDS).map(|_| round()).fold(f64::INFINITY, f64::min)
}
