//! That the writer and the reader are C-12's.

use enet::record::{hash, place, Record};

use super::{
    draw,
    reader::{read, spans, Snapshot, What},
    writer::{stored, write},
};
use crate::{
    damage::damaged,
    met::frames,
    model::{Model, CELL, SECOND, STORE},
    ops,
    output::Output,
    random::Random,
    records::{frame, harm::HARMS, odd::ODDS, sound},
};

/// The record at the start with nothing in its stores.
fn start() -> Vec<u8> {
    write(&Record::fresh(1_392), &[0; STORE], &[0; SECOND])
}

fn hash_of(bytes: &[u8]) -> u32 {
    hash(&bytes.iter().map(|&byte| byte.into()).collect::<Vec<u32>>())
}

/// Its refusal's number, or 0.
fn answer(bytes: &[u8]) -> u32 {
    read(bytes).err().unwrap_or(0)
}

fn again(snapshot: &Snapshot) -> Vec<u8> {
    write(&snapshot.record, &snapshot.store, &snapshot.second)
}

/// What both stores have after a restore: the stored bytes, and 0 elsewhere.
fn kept(record: &Record, store: &[u8], second: &[u8]) -> (Vec<u8>, Vec<u8>) {
    let (mut cells, mut block) = (vec![0; STORE], vec![0; SECOND]);
    for slot in record.used_incoming() {
        let packet = &record.incoming_slots[slot];
        let count = stored(packet);
        if packet.is_block() {
            block[..count].copy_from_slice(&second[..count]);
        } else {
            let cell = slot * CELL..slot * CELL + count;
            cells[cell.clone()].copy_from_slice(&store[cell]);
        }
    }
    (cells, block)
}

#[test]
fn the_smallest_examples_answer_as_the_page_says() {
    let start = start();
    assert_eq!((start.len(), hash_of(&start)), (101, 1_121_423_420));
    assert_eq!(start[58], 0);
    let mut long = start.clone();
    long[58] = 33;
    assert_eq!(answer(&long), 15);
    let mut absent = start;
    absent.splice(58..59, [1, 32]);
    assert_eq!(answer(&absent), 13);
}

#[test]
fn what_is_written_reads_back() {
    let mut random = Random::new(1);
    for turn in 0..3_000 {
        let mut record = match turn {
            0 => Record::fresh(1_392),
            1 => draw::longest(&mut random),
            _ if turn < 2 + ODDS.len() => ODDS[turn - 2].1(&mut random),
            _ => draw::any(&mut random),
        };
        if turn % 3 == 0 {
            record.numbers[place::STATE] = 5;
        }
        let (store, second) = (random.bytes(STORE), random.bytes(SECOND));
        let bytes = write(&record, &store, &second);
        let snapshot = read(&bytes).expect("it is sound");
        assert_eq!(snapshot.record.row(), record.row());
        assert_eq!(snapshot.record.used_incoming(), record.used_incoming());
        let stores = kept(&record, &store, &second);
        assert!((&snapshot.store, &snapshot.second) == (&stores.0, &stores.1));
        assert!(again(&snapshot) == bytes);
    }
}

#[test]
fn what_is_not_written_is_0() {
    let mut random = Random::new(1);
    for _ in 0..500 {
        let record = sound::any(&mut random);
        let snapshot = read(&draw::snapshot(&mut random, &record)).expect("it is sound");
        let read = snapshot.record;
        let zero = Record::zero();
        let (outgoing, incoming) = (read.used_outgoing(), read.used_incoming());
        assert!((0..32).all(|slot| outgoing.contains(&slot)
            || read.outgoing_slots[slot] == zero.outgoing_slots[slot]));
        assert!((0..12).all(|slot| incoming.contains(&slot)
            || read.incoming_slots[slot] == zero.incoming_slots[slot]));
        let open = read.open_channels().len();
        assert_eq!(read.channels[open..], zero.channels[open..]);
        let lists = read.outgoing_lists().into_iter().chain(read.incoming_lists());
        for list in lists {
            assert!(list.cells[list.length.into()..].iter().all(|cell| *cell == 0));
        }
    }
}

#[test]
fn one_byte_fewer_or_more_is_15() {
    let mut random = Random::new(1);
    for turn in 0..60 {
        let mut record = match turn {
            0 => Record::fresh(576),
            1 => draw::everything(&mut random),
            _ => draw::any(&mut random),
        };
        draw::thin(&mut random, &mut record);
        let mut bytes = draw::snapshot(&mut random, &record);
        assert_eq!(answer(&bytes), 0);
        assert!((0..bytes.len()).all(|cut| answer(&bytes[..cut]) == 15));
        bytes.push(0);
        for more in 0..=255 {
            *bytes.last_mut().unwrap() = more;
            assert_eq!(answer(&bytes), 15);
        }
    }
}

#[test]
fn whatever_happens_to_one_it_is_refused_or_writes_the_same_bytes() {
    let (mut random, mut met) = (Random::new(1), [0; 3]);
    for _ in 0..30_000 {
        let base = draw::base(&mut random);
        let bytes = draw::mutated(&mut random, &base);
        match read(&bytes) {
            Ok(snapshot) => {
                assert!(!damaged(&snapshot.record) && again(&snapshot) == bytes);
                met[0] += 1;
            }
            Err(13) => met[1] += 1,
            Err(15) => met[2] += 1,
            Err(other) => panic!("{other}"),
        }
    }
    assert!(met.iter().all(|count| *count > 1_000), "{met:?}");
}

#[test]
fn a_damaged_record_is_refused_where_its_bytes_end() {
    let (mut random, mut met) = (Random::new(1), [0; 2]);
    for (name, make) in HARMS {
        for _ in 0..20 {
            let record = make(&mut random);
            let mut bytes = draw::snapshot(&mut random, &record);
            let number = answer(&bytes);
            // Neither a list above its pool nor a byte of no command reads.
            let long = [" of 33", " of 65535", " of 13"].iter().any(|end| name.ends_with(end));
            match name {
                _ if long || name.starts_with("command ") => assert_eq!(number, 15, "{name}"),
                // A snapshot has no kind beside the byte: it may read as that other command.
                _ if name.starts_with("another command") => {}
                _ => assert_eq!(number, 13, "{name}"),
            }
            met[usize::from(number == 13)] += 1;
            if number == 13 {
                bytes.push(0);
                assert_eq!(answer(&bytes), 15, "{name}");
                bytes.truncate(bytes.len() - 2);
                assert_eq!(answer(&bytes), 15, "{name}");
            }
        }
    }
    assert!(met.iter().all(|count| *count > 100), "{met:?}");
}

#[test]
fn every_number_of_a_snapshot_has_its_width() {
    let mut random = Random::new(1);
    let record = draw::everything(&mut random);
    let spans = spans(&draw::snapshot(&mut random, &record));
    assert_eq!(spans.len(), 1 + record.row().len());
    let count = |what: What| spans.iter().filter(|span| span.what == what).count();
    assert_eq!((count(What::Edition), count(What::Command), count(What::Byte)), (1, 12, 10));
    assert_eq!((count(What::Length(32)), count(What::Length(12))), (3, 9));
    // Edition, peer ids, connect id, session ids, state, channel count.
    let limits: Vec<u32> = spans[..8].iter().map(|span| span.limit).collect();
    assert_eq!(limits, [u32::MAX, 65_535, 65_535, u32::MAX, 255, 255, u32::MAX, u32::MAX]);
    assert_eq!(spans.iter().filter(|span| span.limit == 1).count(), 12);
}

#[test]
fn the_ops_change_what_they_say_and_nothing_else() {
    let (mut script, mut done) = (Vec::new(), [0; 2]);
    super::write(&mut Output::new(&mut script, std::io::sink()), 3, 6_000).unwrap();
    let mut model = Model::new();
    model.snapshots = true;
    for frame in frames(&script) {
        let (row, buffer) = (model.record.row(), model.buffer.clone());
        let stores = (model.store.clone(), model.second.clone());
        let line = ops::answer(&mut model, &frame);
        let restored = line.starts_with("34 0 ");
        let put = line.starts_with("33 0 ") || line == "35";
        assert!(put || model.buffer == buffer, "{line}");
        if (33..=36).contains(&frame.op) && !restored {
            assert!(model.record.row() == row, "{line}");
            assert!((&model.store, &model.second) == (&stores.0, &stores.1), "{line}");
        }
        if line.starts_with("33 0 ") {
            let length: usize = line.split(' ').nth(2).unwrap().parse().unwrap();
            assert!(model.buffer[length..] == buffer[length..]);
            let snapshot = read(&model.buffer[..length]).expect("it was written");
            assert_eq!(snapshot.record.row(), row);
        }
        done[0] += usize::from(restored);
        done[1] += usize::from(line.starts_with("33 0 "));
    }
    assert!(done.iter().all(|count| *count > 300), "{done:?}");
}

#[test]
fn a_model_that_is_not_told_to_does_not_know_the_ops() {
    let mut model = Model::new();
    for op in 33..=36 {
        assert_eq!(ops::answer(&mut model, &frame(op, vec![])), format!("{op} unknown"));
    }
    model.snapshots = true;
    assert_eq!(ops::answer(&mut model, &frame(33, vec![1, 4_096])), "33 0 101 1121423420");
}

#[test]
fn what_is_to_be_stored_meets_every_reply() {
    let met = crate::met::replies(super::named("snapshot-slice").unwrap());
    let replies = [
        "33 11", "33 12", "33 13", "33 15", "33 bad", "33 0 101", "34 0", "34 11", "34 13",
        "34 15", "34 bad", "35", "35 bad", "36",
    ];
    crate::met::assert_met(&met, 1, &replies);
}
