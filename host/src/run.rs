//! A run of 32 sent commands, as the record of a timeout check has them, for the lent walk.

use crate::sent::{walk, Awaiting, Limits, Numbers};

/// A reliable packet that was sent once, at 1,000, with 500 to be acknowledged in.
const AWAITING: Awaiting =
    Awaiting { sent: 1_000, timeout: 500, attempts: 1, length: 100, packet: 1, mark: 0 };

pub type Run = [Awaiting; 32];

pub const RUN: Run = [AWAITING; 32];

const LIMITS: Limits = Limits { ping: 500, timeout: 32, minimum: 5_000, maximum: 30_000 };

const START: Numbers =
    Numbers { earliest: 0, next: 0, lost: 0, transit: 0, kept: 0, back: 0, over: 0 };

/// How many went back.
pub fn walked(run: &mut Run, clock: u32) -> u32 {
    walk(run, LIMITS, clock, START).lost
}
