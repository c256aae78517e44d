//! The door to the pieces of a block: what it keeps, and what a living peer has from one to the next.

use enet::{
    record::{place, Incoming, Record},
    Bench, Piece, Pieced, Room, Verdict,
};

const ROOM: Room = Room { packet: 100_000, waiting: 100_000 };

/// The second of three pieces of 6 bytes.
const SECOND: Piece = Piece {
    byte: 0x88,
    channel: 1,
    number: 9,
    start: 1,
    length: 2,
    count: 3,
    piece: 1,
    total: 6,
    offset: 2,
    rest: &[3, 4, 99],
};
const FIRST: Piece = Piece { piece: 0, offset: 0, rest: &[1, 2], ..SECOND };
const THIRD: Piece = Piece { piece: 2, offset: 4, rest: &[5, 6], ..SECOND };

fn connected() -> Record {
    let mut record = Record::fresh(1_392);
    record.numbers[place::STATE] = 5;
    record.numbers[place::CHANNEL_COUNT] = 2;
    record
}

/// The piece on this record, whose block has these bytes.
fn after(record: &Record, store: &[u8], piece: &Piece) -> (Pieced, Record) {
    Bench::new().piece(record, store, ROOM, piece)
}

#[test]
fn a_first_piece_begins_a_block_over_zeros() {
    let (pieced, record) = after(&connected(), &[], &SECOND);
    let block = vec![0, 0, 3, 4, 0, 0];
    assert_eq!(pieced, Pieced { verdict: Verdict::Delivered, block });
    let slot =
        Incoming { byte: 0x88, channel: 1, number: 1, fragments: 3, remaining: 2, length: 6 };
    assert_eq!((record.channels[1].list.items(), &record.incoming_slots[0]), (&[0][..], &slot));
    assert_eq!((record.marks, record.numbers[place::WAITING]), ([2, 0], 6));
}

#[test]
fn later_pieces_are_loaded_upon_the_stores_bytes() {
    let (pieced, record) = after(&connected(), &[], &SECOND);
    let (pieced, record) = after(&record, &pieced.block, &THIRD);
    assert_eq!((&pieced.block[..], record.marks), (&[0, 0, 3, 4, 5, 6][..], [6, 0]));
    let (pieced, record) = after(&record, &pieced.block, &FIRST);
    assert_eq!((&pieced.block[..], record.marks), (&[1, 2, 3, 4, 5, 6][..], [7, 0]));
    assert_eq!((record.dispatched.items(), record.channels[1].numbers[2]), (&[0][..], 3));
    let (received, record) = Bench::new().received(&record);
    assert_eq!(received.map(|out| (out.channel, out.slot, out.length)), Some((1, 0, 6)));
    assert_eq!((record.marks, record.numbers[place::WAITING]), ([0, 0], 0));
}

#[test]
fn a_marked_piece_is_passed_over_and_other_fields_are_refused() {
    let record = after(&connected(), &[], &SECOND).1;
    let pieced = |piece: &Piece| {
        let (pieced, after) = after(&record, &[0; 6], piece);
        assert_eq!(after, record);
        pieced.verdict
    };
    assert_eq!(pieced(&SECOND), Verdict::PassedOver);
    assert_eq!(pieced(&Piece { count: 4, ..FIRST }), Verdict::Refused);
    assert_eq!(pieced(&Piece { total: 7, ..FIRST }), Verdict::Refused);
    assert_eq!(pieced(&Piece { offset: 5, ..FIRST }), Verdict::Refused);
    assert_eq!(pieced(&Piece { length: 3, ..FIRST }), Verdict::Refused);
}

#[test]
fn the_marks_of_both_words_are_kept() {
    let wide = Piece { count: 64, total: 640, ..SECOND };
    let mut record = connected();
    for piece in [0, 31, 32, 63] {
        record = after(&record, &[0; 640], &Piece { piece, ..wide }).1;
    }
    assert_eq!(record.marks, [1 << 31 | 1, 1 << 31 | 1]);
    assert_eq!(record.incoming_slots[0].remaining, 60);
    assert_eq!(Bench::new().reset(1_392, &record).marks, [0, 0]);
}

#[test]
fn a_living_peer_has_the_blocks_bytes_itself() {
    let (mut bench, other) = (Bench::living(1_392), Record::zero());
    bench.begin(&other, 576, 2);
    bench.set_state(&other, 5);
    for piece in [&THIRD, &FIRST] {
        assert_eq!(bench.piece(&other, &[], ROOM, piece).0.verdict, Verdict::Delivered);
    }
    let record = bench.put_piece(&other, 0, 1, 2, &[3, 4]);
    assert_eq!((record.marks, record.incoming_slots[0].remaining), ([7, 0], 0));
    assert_eq!(bench.dispatch(&other, 1).dispatched.items(), [0]);
    assert_eq!(bench.next_bytes(), Some(vec![1, 2, 3, 4, 5, 6]));
}

#[test]
fn what_no_record_shows_is_judged() {
    let record = after(&connected(), &[], &SECOND).1;
    let judge = |record: &Record, piece| Bench::new().judge_piece(record, ROOM, &piece);
    assert_eq!(judge(&record, Piece { start: 9, ..FIRST }), Verdict::Delivered);
    let many = Piece { count: 100, total: 100, ..FIRST };
    assert_eq!(judge(&connected(), many), Verdict::Delivered);
    assert_eq!(judge(&connected(), Piece { length: 0, ..FIRST }), Verdict::Refused);
}
