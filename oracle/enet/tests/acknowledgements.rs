//! The doors to acknowledgement, timeout check and throttle on a record.

use enet::{
    record::{place, Outgoing, Record},
    Acknowledged, Acknowledgement, Bench, GivenUp,
};

const NONE: u32 = 0;
const DISCONNECT: u32 = 2;

/// A record of one channel in this state that has sent command 3, then 4, then a packet.
fn sent(state: u32) -> Record {
    let mut record = Record::fresh(1_392);
    record.numbers[place::STATE] = state;
    record.numbers[place::CHANNEL_COUNT] = 1;
    record.numbers[place::IN_TRANSIT] = 9;
    record.numbers[place::FLAGS] = 8;
    record.numbers[place::EVENT_DATA] = 7;
    for (slot, kind, channel, length) in [(4, 3, 255, 0), (1, 4, 255, 0), (2, 6, 0, 9)] {
        record.outgoing_slots[slot] = Outgoing {
            reliable: slot as u16,
            sent_time: 1_000,
            timeout: 500,
            length,
            attempts: 1,
            packet: length > 0,
            byte: 128 | kind,
            channel,
            kind,
            fields: vec![0; enet::limits(kind).len()],
            ..Outgoing::default()
        };
        record.sent.push(slot);
    }
    record
}

fn acknowledged(record: &Record, channel: u8, number: u16) -> (Acknowledged, Record) {
    let came = Acknowledgement { channel, number, sent_time: 1_000, clock: 1_040 };
    Bench::new().acknowledge(record, came)
}

#[test]
fn the_answer_is_the_states() {
    use Acknowledged::{Connect, Disconnect, Done, PassedOver, Refused};
    for (state, three, four) in [
        (0, PassedOver, PassedOver),
        (1, Done, Done),
        (2, Connect, Refused),
        (3, Done, Done),
        (4, Done, Done),
        (5, Done, Done),
        (6, Done, Done),
        (7, Refused, Disconnect),
        (8, Done, Done),
        (9, PassedOver, PassedOver),
        (10, Done, Done),
    ] {
        assert_eq!(acknowledged(&sent(state), 255, 4).0, three, "state {state}");
        assert_eq!(acknowledged(&sent(state), 255, 1).0, four, "state {state}");
    }
}

#[test]
fn an_event_leaves_the_record_as_it_is_before_it() {
    for (state, number) in [(2, 4), (7, 1), (2, 1), (7, 4)] {
        let (_, after) = acknowledged(&sent(state), 255, number);
        let (_, mut quiet) = acknowledged(&sent(5), 255, number);
        quiet.numbers[place::STATE] = state;
        assert_eq!(after, quiet);
        assert_eq!((after.sent.length, after.numbers[place::ROUND_TRIP]), (2, 40));
        assert_eq!((after.numbers[place::FLAGS], after.numbers[place::EVENT_DATA]), (8, 7));
    }
}

#[test]
fn the_last_command_gone_in_state_6_the_record_stays() {
    let mut record = sent(6);
    record.sent.length = 1;
    let (answer, after) = acknowledged(&record, 255, 4);
    assert_eq!(answer, Acknowledged::DisconnectNow);
    assert_eq!((after.sent.length, after.outgoing.length), (0, 0));
    assert_eq!((after.numbers[place::STATE], after.numbers[place::CHANNEL_COUNT]), (6, 1));
    record.sent.length = 0;
    assert_eq!(acknowledged(&record, 255, 4).0, Acknowledged::DisconnectNow);
}

#[test]
fn a_sent_packet_is_no_longer_in_transit() {
    let (answer, after) = acknowledged(&sent(5), 0, 2);
    assert_eq!((answer, after.numbers[place::IN_TRANSIT]), (Acknowledged::Done, 0));
    assert_eq!(after.sent.items(), [4, 1]);
    assert_eq!(after.numbers[place::NEXT_TIMEOUT], 1_500);
    // Nothing of that number on that channel.
    assert_eq!(acknowledged(&sent(5), 255, 2).1.sent.items(), [4, 1, 2]);
}

#[test]
fn passed_over_changes_nothing() {
    // Cases P5 and P6.
    for (sent_time, answer) in [(6, Acknowledged::PassedOver), (5, Acknowledged::Done)] {
        let mut record = sent(5);
        record.numbers[place::EARLIEST_TIMEOUT] = 3;
        let came = Acknowledgement { channel: 0, number: 2, sent_time, clock: 65_541 };
        let (answered, after) = Bench::new().acknowledge(&record, came);
        assert_eq!(answered, answer);
        assert_eq!(after == record, answer == Acknowledged::PassedOver);
        if answer == Acknowledged::Done {
            assert_eq!(after.numbers[place::ROUND_TRIP], 1);
        }
    }
}

#[test]
fn what_timed_out_goes_back_in_its_order() {
    for state in [0, 2, 3, 5, 9] {
        assert_eq!(Bench::new().check_timeouts(&sent(state), 1_499), (false, sent(state)));
        let (given_up, after) = Bench::new().check_timeouts(&sent(state), 1_500);
        assert!(!given_up);
        assert_eq!((after.sent.length, after.outgoing.items()), (0, &[4, 1][..]));
        assert_eq!((after.send_reliable.items(), after.numbers[place::IN_TRANSIT]), (&[2][..], 0));
        assert_eq!([4, 1, 2].map(|slot| after.outgoing_slots[slot].timeout), [1_000; 3]);
        assert_eq!(after.numbers[place::EARLIEST_TIMEOUT], 1_000);
        assert_eq!((after.numbers[place::PACKETS_LOST], after.numbers[place::STATE]), (3, state));
    }
}

#[test]
fn given_up_the_moves_before_stay() {
    for state in 0..=10 {
        let mut record = sent(state);
        record.outgoing_slots[1].attempts = 6;
        record.numbers[place::TIMEOUT_MINIMUM] = 500;
        let (given_up, after) = Bench::new().check_timeouts(&record, 1_500);
        assert!(given_up);
        assert_eq!((after.sent.items(), after.outgoing.items()), (&[1, 2][..], &[4][..]));
        let expected = [state, 8, 7, 1];
        let places = [place::STATE, place::FLAGS, place::EVENT_DATA, place::PACKETS_LOST];
        assert_eq!(places.map(|place| after.numbers[place]), expected);
        assert_eq!([4, 1].map(|slot| after.outgoing_slots[slot].timeout), [1_000, 500]);
    }
}

#[test]
fn giving_up_in_states_0_2_and_3_the_source_resets_without_an_event() {
    for state in 0..=10 {
        let mut record = sent(state);
        record.numbers[place::TIMEOUT_MAXIMUM] = 500;
        let event = if [0, 2, 3].contains(&state) { NONE } else { DISCONNECT };
        let (given_up, after) = Bench::new().give_up(&record, 1_500);
        assert_eq!(given_up, GivenUp { returned: 1, event }, "state {state}");
        assert_eq!(after.row(), Bench::new().reset(1_392, &record).row());
    }
}

#[test]
#[cfg_attr(debug_assertions, should_panic(expected = "attempt to shift left with overflow"))]
fn past_32_attempts_the_sources_shift_overflows() {
    let given_up = |attempts, limit| {
        let mut record = sent(5);
        record.outgoing_slots[4].attempts = attempts;
        record.numbers[place::TIMEOUT_LIMIT] = limit;
        record.numbers[place::TIMEOUT_MINIMUM] = 500;
        Bench::new().check_timeouts(&record, 1_500).0
    };
    assert!(given_up(6, 32) && !given_up(5, 32));
    assert!(given_up(32, 1 << 31) && !given_up(32, (1 << 31) + 1));
    // As 1 attempt, and as 6.
    assert!(!given_up(33, 32) && given_up(33, 1));
    assert!(!given_up(37, 32) && given_up(38, 32));
}

#[test]
fn the_throttle_changes_the_record_alone() {
    let mut record = sent(5);
    record.numbers[place::LAST_ROUND_TRIP] = 100;
    record.numbers[place::LAST_VARIANCE] = 10;
    // Case P7.
    for (sample, returned, value) in [(121, -1, 30), (120, 0, 32), (100, 1, 32)] {
        let mut expected = record.clone();
        expected.numbers[place::THROTTLE] = value;
        assert_eq!(Bench::new().throttled(&record, sample), (returned, expected));
    }
}
