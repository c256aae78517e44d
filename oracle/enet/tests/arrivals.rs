//! The doors to the arrivals: what they keep, and where the source finds a datagram too short.

use enet::{
    record::{place, Incoming, Record},
    Arrival, Arrived, Bench, Room, Verdict,
};

const ROOM: Room = Room { packet: 1_000, waiting: 1_000 };
const BYTES: [u8; 6] = [1, 2, 3, 4, 5, 6];

/// An unsequenced packet of three bytes, with flags.
const LOOSE: Arrival =
    Arrival { byte: 0xC9, channel: 1, number: 0x1234, group: 5, length: 3, rest: &BYTES };
/// A reliable one.
const RELIABLE: Arrival = Arrival { byte: 0x86, number: 1, ..LOOSE };

fn connected() -> Record {
    let mut record = Record::fresh(1_392);
    record.numbers[place::STATE] = 5;
    record.numbers[place::CHANNEL_COUNT] = 2;
    record
}

fn verdict(arrival: Arrival) -> Verdict {
    Bench::new().arrive(&connected(), ROOM, &arrival).0.verdict
}

#[test]
fn the_whole_byte_and_the_number_are_kept() {
    for arrival in [LOOSE, RELIABLE] {
        let (arrived, after) = Bench::new().arrive(&connected(), ROOM, &arrival);
        assert_eq!(arrived, Arrived { verdict: Verdict::Delivered, bytes: vec![1, 2, 3] });
        let Arrival { byte, channel, number, .. } = arrival;
        let kept = Incoming { byte, channel, number, length: 3, ..Incoming::default() };
        assert_eq!((after.dispatched.items(), &after.incoming_slots[0]), (&[0][..], &kept));
        assert_eq!((after.numbers[place::WAITING], after.numbers[place::FLAGS]), (3, 1));
    }
}

#[test]
fn a_payload_ends_at_the_datagrams_end_at_the_latest() {
    for arrival in [LOOSE, RELIABLE] {
        assert_eq!(verdict(Arrival { length: 6, ..arrival }), Verdict::Delivered);
        assert_eq!(verdict(Arrival { length: 7, ..arrival }), Verdict::Refused);
        assert_eq!(verdict(Arrival { length: 0, rest: &[], ..arrival }), Verdict::Delivered);
        assert_eq!(verdict(Arrival { length: 1, rest: &[], ..arrival }), Verdict::Refused);
        assert_eq!(verdict(Arrival { length: 65_535, ..arrival }), Verdict::Refused);
    }
}

#[test]
fn the_settings_are_the_hosts() {
    for arrival in [LOOSE, RELIABLE] {
        let verdict = |packet, waiting| {
            let room = Room { packet, waiting };
            Bench::new().arrive(&connected(), room, &arrival).0.verdict
        };
        assert_eq!((verdict(3, 1), verdict(2, 1)), (Verdict::Delivered, Verdict::Refused));
        assert_eq!((verdict(3, u32::MAX), verdict(3, 0)), (Verdict::Delivered, Verdict::Refused));
    }
}

#[test]
fn no_call_shows_in_the_next() {
    let mut bench = Bench::new();
    let first = bench.arrive(&connected(), ROOM, &LOOSE);
    bench.judge(&connected(), Room { packet: 1, waiting: 0 }, &LOOSE);
    bench.arrive(&connected(), ROOM, &RELIABLE);
    assert_eq!(bench.arrive(&connected(), ROOM, &LOOSE), first);
    assert!(bench.read(&[5, 0, 0, 0], 0).is_some());
}
