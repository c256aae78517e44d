//! The records that are lent, made by our own calls; single numbers are written at their places.

use crate::{calls, WHOLE};

/// How many numbers a record has.
const NUMBERS: usize = 1_236;

pub type Record = [u32; NUMBERS];

/// When something came last, and the last reliable number that came on channel 0.
const LAST_RECEIVE: usize = 14;
const LAST_RELIABLE: usize = 196;

/// As a reset leaves it.
pub fn fresh() -> Record {
    let mut words = [0; NUMBERS];
    made(calls::reset(&mut words));
    words
}

/// Connected, with one channel; something came before, so that no sample is the first.
pub fn connected() -> Record {
    let mut words = fresh();
    made(calls::begin(&mut words));
    made(calls::state(&mut words, calls::MTU));
    words[LAST_RECEIVE] = 1;
    words
}

/// So many packets wait to be sent.
pub fn waiting(count: usize) -> Record {
    let mut words = connected();
    for _ in 0..count {
        made(calls::send(&mut words, calls::MTU, WHOLE));
    }
    words
}

/// So many packets were sent, numbered from 1, and await acknowledgements.
pub fn sent(count: usize) -> Record {
    let mut words = waiting(count);
    for _ in 0..count {
        assert_eq!(calls::step(&mut words), 1);
    }
    words
}

/// Packet 2 is held; with this number before it.
pub fn holding(last: u32) -> Record {
    let mut words = connected();
    assert_eq!(calls::reliable(&mut words, 2), 1);
    words[LAST_RELIABLE] = last;
    words
}

/// One packet is there to be received.
pub fn delivered() -> Record {
    let mut words = connected();
    assert_eq!(calls::unsequenced(&mut words, 0), 1);
    words
}

/// The first piece of a block of two is there.
pub fn begun() -> Record {
    let mut words = connected();
    assert_eq!(calls::fragment(&mut words, 0), 1);
    words
}

/// A whole block is there to be received.
pub fn block() -> Record {
    let mut words = begun();
    assert_eq!(calls::fragment(&mut words, 1), 1);
    words
}

fn made(answer: u32) {
    assert_eq!(answer, 0, "a record is not made");
}
