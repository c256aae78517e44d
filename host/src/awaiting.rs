//! The source's acknowledgement, with the command and the packet that it frees, and its timeout check. What a call changed
//! is put back before the next, outside the clock; every count is of wrong answers.

use enet::Awaiting;

use crate::{clock, few, few::PLACES};

/// Of the first of so many that are sent.
pub fn acknowledge(count: u16) -> (f64, u32) {
    let (first, rest) = (Awaiting::make(1), usize::from(count) - 1);
    timed(count, |peer| peer.acknowledge(&first), |peer| peer.put_back(1), [rest, 0])
}

/// Of none of them.
pub fn acknowledge_none(count: u16) -> (f64, u32) {
    let none = Awaiting::make(count + 1);
    let all = [count.into(), 0];
    timed(count, |peer| peer.acknowledge(&none), |_| (), all)
}

/// None of so many is due, or all are.
pub fn check(count: u16, due: bool) -> (f64, u32) {
    let all = usize::from(count);
    if due {
        timed(count, Awaiting::check_late, Awaiting::send_again, [0, all])
    } else {
        timed(count, Awaiting::check_early, |_| (), [all, 0])
    }
}

/// A call that answers 0 and leaves so many sent and waiting.
fn timed(
    count: u16,
    call: impl Fn(&mut Awaiting) -> i32,
    again: impl Fn(&mut Awaiting),
    left: [usize; 2],
) -> (f64, u32) {
    let (mut peers, mut wrong) = (PLACES.map(|_| Awaiting::new(count, true)), 0);
    let time = few::timed(|| {
        let time = clock::time(&PLACES, |place| wrong += u32::from(call(&mut peers[*place]) != 0));
        for peer in &mut peers {
            wrong += u32::from(peer.counts() != left);
            again(peer);
        }
        time
    });
    (time, wrong)
}
