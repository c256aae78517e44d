//! A peer that lives from call to call.

use enet::{
    record::{place, Outgoing, Queue, Record},
    Acknowledged, Acknowledgement, Arrival, Bench, Limits, Packet, Room,
};

/// A record that no living peer has: it counts for nothing.
fn other() -> Record {
    Record::zero()
}

fn connected() -> Bench {
    let mut bench = Bench::living(1_392);
    bench.begin(&other(), 576, 2);
    bench.set_state(&other(), 5);
    bench
}

fn acknowledged(bench: &mut Bench, number: u16, clock: u32) -> Acknowledged {
    let came = Acknowledgement { channel: 255, number, sent_time: 1_000, clock };
    bench.acknowledge(&other(), came).0
}

#[test]
fn at_the_start_it_is_as_reset() {
    assert_eq!(Bench::living(1_392).seen(), Some(Record::fresh(1_392)));
    assert_eq!(Bench::new().seen(), None);
}

#[test]
fn each_call_goes_on_where_the_last_one_ended() {
    let mut bench = connected();
    for count in 1..=3 {
        let after = bench.ping(&other());
        assert_eq!(
            (after.outgoing.length, after.numbers[place::HOST_COUNT]),
            (count, count.into())
        );
        assert_eq!(bench.seen(), Some(after));
    }
    let after = bench.reset(4_096, &other());
    assert_eq!(after.numbers[place::HOST_COUNT], 3);
    assert_eq!((after.outgoing.length, after.numbers[place::MTU]), (0, 4_096));
}

#[test]
fn a_slot_stays_with_its_command_and_is_taken_again_once_that_is_gone() {
    let mut bench = connected();
    for _ in 0..3 {
        bench.ping(&other());
    }
    for _ in 0..2 {
        bench.step(&other(), Queue::Outgoing, 1_000);
    }
    assert_eq!(acknowledged(&mut bench, 1, 1_100), Acknowledged::Done);
    let after = bench.ping(&other());
    assert_eq!((after.sent.items(), after.outgoing.items()), (&[1][..], &[2, 0][..]));
    assert_eq!(after.outgoing_slots[0].reliable, 4);
}

/// A ping of state 5 sent at 1,000, and then this state.
fn sent(state: u32) -> Bench {
    let mut bench = connected();
    bench.ping(&other());
    bench.step(&other(), Queue::Outgoing, 1_000);
    bench.set_state(&other(), state);
    bench
}

#[test]
fn given_up_it_stays_as_it_was_just_before() {
    for state in 0..=9 {
        let mut bench = sent(state);
        let mut told = bench.seen().unwrap();
        told.numbers[place::EARLIEST_TIMEOUT] = 1_000;
        for _ in 0..2 {
            let (given_up, after) = bench.check_timeouts(&other(), 31_000);
            assert_eq!((given_up, after.row()), (true, told.row()), "state {state}");
        }
    }
}

#[test]
fn an_event_leaves_it_as_it_was_just_before() {
    for (state, kind, told) in [
        (2, 3, Acknowledged::Connect),
        (7, 4, Acknowledged::Disconnect),
        (2, 4, Acknowledged::Refused),
    ] {
        let mut bench = connected();
        let (byte, fields) = (128 | kind, vec![1; enet::limits(kind).len()]);
        let command = Outgoing { byte, kind, channel: 255, fields, ..Outgoing::default() };
        bench.setup(&other(), &command);
        bench.step(&other(), Queue::Outgoing, 1_000);
        bench.set_state(&other(), state);
        assert_eq!(acknowledged(&mut bench, 1, 1_100), told);
        let after = bench.seen().unwrap();
        assert_eq!((after.numbers[place::STATE], after.sent.length), (state, 0));
        assert_eq!((after.numbers[place::FLAGS], after.numbers[place::CHANNEL_COUNT]), (0, 2));
    }
    let mut bench = sent(6);
    assert_eq!(acknowledged(&mut bench, 1, 1_100), Acknowledged::DisconnectNow);
    let after = bench.seen().unwrap();
    assert_eq!((after.numbers[place::STATE], after.numbers[place::CHANNEL_COUNT]), (6, 2));
}

#[test]
fn what_came_in_comes_out_with_its_bytes_and_after_a_reset_nothing_does() {
    let arrival = Arrival { byte: 73, channel: 1, number: 9, group: 2, length: 3, rest: b"abcd" };
    let (room, mut bench) = (Room { packet: 1_000, waiting: 1_000 }, connected());
    for _ in 0..3 {
        bench.arrive(&other(), room, &arrival);
        assert_eq!(bench.next_bytes(), Some(b"abc".to_vec()));
        assert_eq!(bench.received(&other()).0.map(|out| (out.channel, out.slot)), Some((1, 0)));
        assert_eq!((bench.next_bytes(), bench.received(&other()).0), (None, None));
        bench.arrive(&other(), room, &Arrival { group: 5, ..arrival });
        bench.reset(1_392, &other());
        assert_eq!(bench.received(&other()).0, None);
        bench.begin(&other(), 576, 2);
        bench.set_state(&other(), 5);
    }
}

#[test]
fn its_settings_are_those_of_the_call() {
    let mut bench = connected();
    let packet = Packet { channel: 0, length: 548, flags: 1 };
    for (checksum, commands) in [(true, 2), (false, 3), (true, 5)] {
        let limits = Limits { packet: 1_000, checksum };
        assert_eq!(bench.send(&other(), limits, packet).1.send_reliable.length, commands);
    }
}

#[test]
#[should_panic(expected = "never loaded")]
fn it_is_never_loaded() {
    let arrival = Arrival { byte: 73, channel: 0, number: 0, group: 0, length: 0, rest: &[] };
    connected().judge(&other(), Room { packet: 1, waiting: 1 }, &arrival);
}

#[test]
#[should_panic(expected = "never made anew")]
fn it_is_never_made_anew() {
    connected().read(&[5, 0, 0, 0], 0);
}
