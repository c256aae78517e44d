//! The doors that make a call on a record.

use enet::{
    record::{place, Outgoing, Record},
    Acknowledgement, Arrival, Bench, Limits, Packet, Room,
};

const LIMITS: Limits = Limits { packet: 1_000, checksum: true };
const PACKET: Packet = Packet { channel: 0, length: 1, flags: 1 };
const ROOM: Room = Room { packet: 1_000, waiting: 1_000 };
const ARRIVAL: Arrival =
    Arrival { byte: 73, channel: 0, number: 1, group: 2, length: 1, rest: &[7] };
const ACKNOWLEDGEMENT: Acknowledgement =
    Acknowledgement { channel: 0, number: 1, sent_time: 2, clock: 3 };

/// A connected record of one channel with something also where it does not count.
fn connected() -> Record {
    let mut record = Record::fresh(576);
    record.numbers[place::STATE] = 5;
    record.numbers[place::INCOMING_PEER_ID] = 77;
    record.numbers[place::CHANNEL_COUNT] = 1;
    record.channels[1].numbers = [1, 2, 3, 4];
    record.channels[1].list.length = 9;
    record.outgoing.cells[5] = 6;
    record.outgoing_slots[7] = ping();
    record.incoming_slots[3].length = 8;
    record
}

fn ping() -> Outgoing {
    Outgoing { byte: 133, channel: 255, kind: 5, ..Outgoing::default() }
}

/// The record after each call.
fn each(bench: &mut Bench, record: &Record) -> Vec<Record> {
    vec![
        bench.ping(record),
        bench.send(record, LIMITS, PACKET).1,
        bench.setup(record, &ping()),
        bench.pack(record, 5).1,
        bench.disconnect(record, 3),
        bench.arrive(record, ROOM, &ARRIVAL).1,
        bench.acknowledge(record, ACKNOWLEDGEMENT).1,
        bench.check_timeouts(record, 5).1,
        bench.throttled(record, 5).1,
    ]
}

#[test]
fn a_call_leaves_the_bench_as_it_was() {
    let mut bench = Bench::new();
    let first = each(&mut bench, &connected());
    assert_eq!(each(&mut bench, &connected()), first);
    // The reader finds the peer by its id and needs it connected.
    assert!(bench.read(&[5, 0, 0, 0], 0).is_some());
}

#[test]
fn what_does_not_count_stays() {
    let before = connected();
    for after in each(&mut Bench::new(), &before) {
        assert_eq!(after.channels[1], before.channels[1]);
        assert_eq!(after.outgoing.cells[5], 6);
        assert_eq!(after.outgoing_slots[7], before.outgoing_slots[7]);
        assert_eq!(after.incoming_slots[3], before.incoming_slots[3]);
    }
}

#[test]
fn a_send_of_a_gigabyte_takes_no_room() {
    let packet = Packet { length: 1 << 30, ..PACKET };
    let limits = Limits { packet: 1 << 30, checksum: false };
    assert_eq!(Bench::new().send(&connected(), limits, packet), (4, connected()));
}

#[test]
fn a_checksum_takes_4_bytes_of_the_fragment_length() {
    let lengths = |checksum, length| {
        let limits = Limits { packet: 1_000, checksum };
        let after = Bench::new().send(&connected(), limits, Packet { length, ..PACKET }).1;
        let slots = after.send_reliable.slots().map(|slot| after.outgoing_slots[slot].length);
        slots.collect::<Vec<_>>()
    };
    assert_eq!((lengths(false, 548), lengths(false, 549)), (vec![548], vec![548, 1]));
    assert_eq!((lengths(true, 544), lengths(true, 545)), (vec![544], vec![544, 1]));
}
