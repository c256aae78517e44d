//! The source's send, ping, setting up, reset and throttle.

use enet::{Bench, Sender, Throttle};

use crate::{clock, clock::least, few, few::PLACES, TURNS};

/// Nanoseconds of the source's send of a reliable packet, and the sum of its answers, each 0. The packets are made before
/// a round and freed after it, outside the clock.
pub fn source(length: u32) -> (f64, u32) {
    let (mut sender, mut answers) = (Sender::new(), 0);
    let time = least(|| {
        let packets = [(); TURNS].map(|_| Sender::make(length));
        let time = clock::time(&packets, |packet| answers += sender.send(packet));
        sender.empty();
        time
    });
    (time, answers)
}

/// Nanoseconds of the source's ping.
pub fn ping() -> (f64, u32) {
    queued(Sender::ping)
}

/// Nanoseconds of the source's setting up of a disconnect.
pub fn setup() -> (f64, u32) {
    let disconnect = Sender::make_disconnect();
    queued(|sender| sender.set_up(&disconnect))
}

/// A call that has no answer, as often as a round has turns.
fn queued(call: impl Fn(&mut Sender)) -> (f64, u32) {
    let mut sender = Sender::new();
    let time = least(|| {
        let time = clock::time(&[(); TURNS], |()| call(&mut sender));
        sender.empty();
        time
    });
    (time, 0)
}

/// Nanoseconds of the source's reset of a connected peer with nothing queued, whose channel is not freed; how many are not reset then.
pub fn reset() -> (f64, u32) {
    let (mut senders, mut wrong) = (PLACES.map(|_| Sender::new()), 0);
    let time = few::timed(|| {
        let channels: Vec<_> = senders.iter_mut().map(Sender::put_aside).collect();
        let time = clock::time(&PLACES, |place| senders[*place].reset());
        for (sender, channel) in senders.iter_mut().zip(channels) {
            wrong += u32::from(!sender.is_reset());
            sender.put_back(channel);
        }
        time
    });
    (time, wrong)
}

/// Nanoseconds of the source's throttle, which raises, and how many of its answers are not 1.
pub fn throttle(last: u32) -> (f64, u32) {
    let (mut bench, mut wrong) = (Bench::new(), 0);
    let numbers =
        Throttle { value: 32, limit: 32, acceleration: 2, deceleration: 2, last, variance: 0 };
    let time = least(|| {
        clock::time(&[last; TURNS], |sample| {
            wrong += u32::from(bench.throttle(numbers, *sample).1 != 1);
        })
    });
    (time, wrong)
}
