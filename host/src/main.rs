//! The exported window, throttle, reader and lent walk against the source's own functions, in one process.
//!
//! Prints for each the calls compared, the differences, and the time of each side a call.

#![no_main] // the ordinary runtime may crash at exit under the emulator

mod clock;
mod ours;
#[allow(dead_code)] // the oracle's, of which the host uses a part
#[path = "../../oracle/compare/src/random.rs"]
mod random;
mod reader;
mod sent;
mod tally;
mod throttle;
mod walk;
mod window;

use enet::Bench;
use random::Random;

/// Argument 1: how many random inputs each comparison adds to its edge cases.
#[no_mangle]
pub extern "C" fn main(count: i32, words: *const *const std::ffi::c_char) -> i32 {
    let more = argument(count, words).unwrap_or(1_000_000);
    let mut bench = Bench::new();
    let mut random = Random::new(1);
    let differences = [
        throttle::compare(&mut bench, &mut random, more),
        window::compare(&mut bench, &mut random, more),
        reader::compare(&mut bench, &mut random, more),
        walk::compare(&mut random, more),
    ]
    .iter()
    .sum::<u64>();
    println!("{differences} differences");
    i32::from(differences > 0)
}

fn argument(count: i32, words: *const *const std::ffi::c_char) -> Option<u64> {
    if count < 2 {
        return None;
    }
    let word = unsafe { std::ffi::CStr::from_ptr(*words.add(1)) };
    word.to_str().ok()?.parse().ok()
}
