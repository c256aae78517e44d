//! Cases of document 01 and the edges of each door.

use enet::{limits, size, write, Bench, Throttle, Verdict};

const CONNECTED: u32 = 5;
const DISCONNECT_LATER: u32 = 6;
const CLEAR: [u32; 32] = [0; 32];

#[test]
fn window_cases_p1_to_p4() {
    let cases = [
        (0, 32_767, Verdict::Delivered, 31_744),
        (0, 32_768, Verdict::PassedOver, 0),
        (33_792, 5, Verdict::Delivered, 0),
        (32_768, 5, Verdict::PassedOver, 32_768),
    ];
    let mut bench = Bench::new();
    for (base, group, verdict, after) in cases {
        let window = bench.unsequenced(base, CLEAR, group, true, CONNECTED);
        assert_eq!((window.verdict, window.base), (verdict, after), "base {base}, group {group}");
    }
}

#[test]
fn window_marks_what_it_delivers_and_passes_it_over_again() {
    let mut bench = Bench::new();
    let first = bench.unsequenced(0, CLEAR, 33, true, CONNECTED);
    assert_eq!((first.verdict, first.words[1]), (Verdict::Delivered, 2));
    let second = bench.unsequenced(first.base, first.words, 33, true, CONNECTED);
    assert_eq!((second.verdict, second.words), (Verdict::PassedOver, first.words));
}

#[test]
fn window_keeps_its_move_where_there_is_no_room() {
    let window = Bench::new().unsequenced(0, [7; 32], 1_025, false, CONNECTED);
    assert_eq!((window.verdict, window.base, window.words), (Verdict::Refused, 1_024, CLEAR));
}

#[test]
fn window_marks_without_storing_in_state_6() {
    let window = Bench::new().unsequenced(0, CLEAR, 0, false, DISCONNECT_LATER);
    assert_eq!((window.verdict, window.words[0]), (Verdict::PassedOver, 1));
}

#[test]
fn window_refuses_in_every_other_state() {
    let mut bench = Bench::new();
    for state in [0, 1, 2, 3, 4, 7, 8, 9, 10] {
        let window = bench.unsequenced(0, [7; 32], 1_025, true, state);
        assert_eq!((window.verdict, window.base, window.words), (Verdict::Refused, 0, [7; 32]));
    }
}

#[test]
fn throttle_case_p7() {
    let numbers = Throttle {
        value: 32,
        limit: 32,
        acceleration: 2,
        deceleration: 2,
        last: 100,
        variance: 10,
    };
    let mut bench = Bench::new();
    assert_eq!(bench.throttle(numbers, 121), (Throttle { value: 30, ..numbers }, -1));
    assert_eq!(bench.throttle(numbers, 120), (numbers, 0));
}

#[test]
fn distance_turns_at_a_day() {
    const DAY: u32 = 86_400_000;
    let cases = [
        (0, 0, 0),
        (5, 3, 2),
        (3, 5, 2),
        (DAY - 1, 0, DAY - 1),
        (DAY, 0, DAY.wrapping_neg()),
        (0, DAY, DAY),
        (0, DAY.wrapping_neg(), DAY.wrapping_neg()),
        (0, DAY.wrapping_neg() + 1, DAY - 1),
        (1 << 31, 0, 1 << 31),
        (u32::MAX, 0, 1),
        (0, u32::MAX, 1),
    ];
    let mut bench = Bench::new();
    for (a, b, distance) in cases {
        assert_eq!(bench.distance(a, b), distance, "{a} and {b}");
    }
}

#[test]
fn sizes_are_those_of_the_packed_structs() {
    let sizes: Vec<usize> = (1..=12).map(size).collect();
    assert_eq!(sizes, [8, 48, 44, 8, 4, 6, 8, 24, 8, 12, 16, 24]);
}

#[test]
fn reading_gives_back_what_was_written() {
    let mut bench = Bench::new();
    for kind in 1..=12 {
        for flags in [0, 64, 128, 240] {
            let fields: Vec<u32> = limits(kind).iter().map(|limit| limit & 0x8123_4567).collect();
            let bytes = write(kind | flags, 7, 0xABCD, kind, &fields);
            let read = bench.read(&bytes, 0).expect("the source accepts it");
            assert_eq!((read.next, read.byte), (size(kind), kind | flags));
            assert_eq!((read.channel, read.number, read.fields), (7, 0xABCD, fields));
        }
    }
}

#[test]
fn reading_needs_every_byte_and_a_known_command() {
    let mut bench = Bench::new();
    for byte in 0..=255 {
        let kind = byte & 15;
        for length in 0..=64 {
            let bytes = vec![byte; length];
            let known = (1..=12).contains(&kind) && length >= size(kind);
            assert_eq!(bench.read(&bytes, 0).is_some(), known, "byte {byte}, length {length}");
        }
    }
}

#[test]
fn reading_starts_at_any_place() {
    let mut bytes = vec![0; 5_000];
    bytes.extend(write(5, 1, 2, 5, &[]));
    let mut bench = Bench::new();
    assert_eq!(bench.read(&bytes, 5_000).expect("a ping").next, 5_004);
    for place in [0, 4_999, 5_001, 5_004, 5_005, usize::MAX] {
        assert_eq!(bench.read(&bytes, place), None, "place {place}");
    }
}
