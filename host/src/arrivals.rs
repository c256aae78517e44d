//! The source's arrivals, with the packet that they allocate, its dispatch and its receive. What a round needs is made
//! before it and freed after it, outside the clock; every count is of wrong answers.

use enet::{Arrival, Datagram, Piece, Receiver};

use crate::{
    calls::DATAGRAM,
    clock,
    clock::least,
    few::{timed, PLACES},
    TURNS,
};

const UNSEQUENCED: u8 = 73;
const RELIABLE: u8 = 134;
const FRAGMENT: u8 = 136;

/// So many groups are taken: this one for each turn.
pub fn unsequenced(group: fn(u16) -> u16) -> (f64, u32) {
    arrive(|turn| datagram(UNSEQUENCED, 0, group(turn)))
}

/// So many numbers come: this one for each turn.
pub fn reliable(number: fn(u16) -> u16) -> (f64, u32) {
    arrive(|turn| datagram(RELIABLE, number(turn), 0))
}

/// A piece of a block of two, of which these came before.
pub fn fragment(before: &[u32], number: u32) -> (f64, u32) {
    let (mut receivers, mut wrong) = (PLACES.map(|_| Receiver::default()), 0);
    let (held, datagram) = (before.iter().map(|number| piece(*number)), piece(number));
    let held: Vec<Datagram> = held.collect();
    let time = timed(|| {
        for receiver in &mut receivers {
            receiver.renew();
            wrong += held.iter().map(|one| u32::from(receiver.arrive(one) != 0)).sum::<u32>();
        }
        clock::time(&PLACES, |place| {
            wrong += u32::from(receivers[*place].arrive(&datagram) != 0);
        })
    });
    (time, wrong)
}

/// Every second number is held: so each dispatch finds one ready, or finds that the first has to wait.
pub fn dispatch(ready: bool) -> (f64, u32) {
    let (mut receiver, mut wrong) = (Receiver::default(), 0);
    let lasts = turns().map(|turn| if ready { 2 * turn + 1 } else { 0 });
    let time = least(|| {
        for turn in turns() {
            receiver.arrive(&datagram(RELIABLE, 2 * turn + 2, 0));
        }
        let time = clock::time(&lasts, |last| receiver.dispatch(*last));
        let came = (0..).map_while(|_| receiver.receive()).count();
        wrong += u32::from(came != if ready { TURNS } else { 0 });
        receiver.renew();
        time
    });
    (time, wrong)
}

pub fn receive() -> (f64, u32) {
    let (mut receiver, mut wrong) = (Receiver::default(), 0);
    let time = least(|| {
        for turn in turns() {
            receiver.arrive(&datagram(UNSEQUENCED, 0, turn));
        }
        let mut taken = Vec::with_capacity(TURNS);
        let time = clock::time(&[(); TURNS], |()| taken.extend(receiver.receive()));
        wrong += u32::from(taken.len() != TURNS);
        receiver.renew();
        time
    });
    (time, wrong)
}

fn arrive(made: impl Fn(u16) -> Datagram) -> (f64, u32) {
    let (mut receiver, mut wrong) = (Receiver::default(), 0);
    let datagrams = turns().map(made);
    let time = least(|| {
        let time =
            clock::time(&datagrams, |datagram| wrong += u32::from(receiver.arrive(datagram) != 0));
        receiver.renew();
        time
    });
    (time, wrong)
}

fn turns() -> [u16; TURNS] {
    std::array::from_fn(|turn| turn as u16)
}

fn datagram(byte: u8, number: u16, group: u16) -> Datagram {
    let length = DATAGRAM.len() as u16;
    Receiver::make(&Arrival { byte, channel: 0, number, group, length, rest: &DATAGRAM })
}

/// The same piece that `calls::fragment` hands over.
fn piece(piece: u32) -> Datagram {
    let length = DATAGRAM.len() as u16;
    let (total, offset) = (2 * u32::from(length), piece * u32::from(length));
    let rest = &DATAGRAM;
    Receiver::make_piece(&Piece {
        byte: FRAGMENT,
        channel: 0,
        number: 1,
        start: 1,
        length,
        count: 2,
        piece,
        total,
        offset,
        rest,
    })
}
