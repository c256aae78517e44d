//! The record's row of numbers and hash, and the reset, by document 01 and SCRIPT.md.

use enet::{
    record::{hash, place, Incoming, Outgoing, Record},
    Bench,
};

/// The row of the record at the start, written out from document 01.
const FRESH: [u32; 88] = [
    4_095, 0, 0, 0, 0, // outgoing and incoming id, connect id, session ids
    0, 0, // state, channel count
    0, 0, 0, 0, // bandwidths and their epochs
    0, 0, // data totals
    0, 0, 0, 0, // last send and receive, next and earliest timeout
    0, 0, 0, 0, 0, // loss epoch, sent, lost, loss, its variance
    32, 32, 0, 0, 2, 2, 5_000, // throttle, limit, counter, epoch, up, down, interval
    500, 32, 5_000, 30_000, // ping interval, timeout limit, minimum, maximum
    500, 500, 0, 0, 500, 0, // round trips: last, lowest, two variances, now, variance
    1_392, 65_536, 0, 0, // MTU, window size, in transit, reliable number
    0, 0, 0, 0, // the four lists, empty
    0, 0, 0, 0, // flags, reserved, incoming and outgoing group
    0, 0, 0, 0, 0, 0, 0, 0, 0, 0, 0, 0, 0, 0, 0, 0, // words 0 to 15
    0, 0, 0, 0, 0, 0, 0, 0, 0, 0, 0, 0, 0, 0, 0, 0, // words 16 to 31
    0, 0, 0, // event data, waiting total, host count
    0, 0, // C-11: the marks
];

#[test]
fn the_fresh_record_is_document_01s() {
    let row = Record::fresh(1_392).row();
    assert_eq!(row, FRESH);
    assert_eq!(hash(&row), 863_548_835);
}

#[test]
fn the_hash_is_script_mds() {
    assert_eq!((hash(&[]), hash(&[0, 0]), hash(&[7])), (0, 0, 7));
    assert_eq!(hash(&[1, 2]), 65_599 + 2);
    assert_eq!(hash(&[u32::MAX]), 4);
    assert_eq!(hash(&[65_536, 1]), 4_128_769 + 5);
}

#[test]
fn the_row_shows_what_counts() {
    let mut record = Record::fresh(1_392);
    record.numbers[place::CHANNEL_COUNT] = 1;
    record.outgoing_slots[3] = Outgoing {
        reliable: 1,
        unreliable: 2,
        sent_time: 3,
        timeout: 4,
        queue_time: 5,
        offset: 6,
        length: 7,
        attempts: 8,
        packet: true,
        byte: 135,
        channel: 0,
        number: 9,
        kind: 7,
        fields: vec![10, 11],
    };
    record.outgoing_slots[4] = Outgoing { byte: 5, kind: 5, channel: 255, ..Outgoing::default() };
    record.incoming_slots[2] =
        Incoming { byte: 134, channel: 0, number: 20, fragments: 21, remaining: 22, length: 23 };
    record.sent.push(4);
    record.outgoing.push(3);
    record.channels[0].numbers = [30, 31, 32, 33];
    record.channels[0].list.push(2);
    // Past a length, at the count and in a free slot nothing counts.
    record.dispatched.cells[0] = 9;
    record.channels[1].list.push(5);
    record.incoming_slots[5].length = 1;
    record.marks = [40, 41];

    let mut expected = FRESH[..43].to_vec();
    expected[place::CHANNEL_COUNT] = 1;
    expected.extend([1, 4, 0, 1, 3, 0]);
    expected.extend(&FRESH[47..86]);
    expected.extend([30, 31, 32, 33, 1, 2]);
    expected.extend([1, 2, 3, 4, 5, 6, 7, 8, 1, 135, 0, 9, 10, 11]);
    expected.extend([0, 0, 0, 0, 0, 0, 0, 0, 0, 5, 255, 0]);
    expected.extend([134, 0, 20, 21, 22, 23]);
    expected.extend([40, 41]);
    assert_eq!(record.row(), expected);
}

#[test]
fn the_row_of_a_damaged_record_stays_within_its_pools() {
    let mut record = Record::fresh(1_392);
    record.numbers[place::CHANNEL_COUNT] = 9;
    record.sent.length = 33;
    record.sent.cells.fill(32);
    record.dispatched.length = 65_535;
    record.dispatched.cells.fill(11);
    record.incoming_slots[11].length = 5_000;

    let mut expected = FRESH[..43].to_vec();
    expected[place::CHANNEL_COUNT] = 9;
    expected.push(33);
    expected.extend([32; 32]);
    expected.extend([0, 0, 65_535]);
    expected.extend([11; 12]);
    expected.extend(&FRESH[47..86]);
    expected.extend([0; 8 * 5]);
    expected.extend([0, 0, 0, 0, 0, 5_000]);
    expected.extend([0, 0]);
    assert_eq!(record.row(), expected);
}

#[test]
fn a_reset_leaves_the_bench_as_it_was() {
    let mut bench = Bench::new();
    let mut record = Record::fresh(1_392);
    record.numbers[place::INCOMING_PEER_ID] = 77;
    record.numbers[place::STATE] = 6;
    let after = bench.reset(4_096, &record);
    assert_eq!(after.numbers[place::INCOMING_PEER_ID], 77);
    // The reader finds the peer by its id and needs it connected.
    assert!(bench.read(&[5, 0, 0, 0], 0).is_some());
}
