//! The reader, from C-12's text alone.

use std::ops::Range;

use enet::{
    limits,
    record::{place, Incoming, List, Outgoing, Record, INCOMING, OUTGOING},
};

use super::{
    groups,
    writer::{stored, EDITION},
};
use crate::{
    damage::damaged,
    model::{CELL, SECOND, STORE},
    ops::{incoming, outgoing},
};

/// What a snapshot holds; what is not written is 0.
pub struct Snapshot {
    pub record: Record,
    pub store: Vec<u8>,
    pub second: Vec<u8>,
}

/// What a number of a snapshot is.
#[derive(Clone, Copy, Debug, PartialEq, Eq)]
pub enum What {
    Edition,
    /// The length of a list over a pool of so many slots.
    Length(usize),
    /// The command byte of an outgoing slot, and of an incoming one.
    Command,
    Byte,
    Other,
}

/// Where a number stands, and the largest that fits its field.
#[derive(Clone, Debug)]
pub struct Span {
    pub what: What,
    pub at: Range<usize>,
    pub limit: u32,
}

/// The snapshot, or 15, or 13.
pub fn read(bytes: &[u8]) -> Result<Snapshot, u32> {
    let snapshot = Reader::new(bytes).whole().ok_or(15_u32)?;
    if damaged(&snapshot.record) {
        return Err(13);
    }
    Ok(snapshot)
}

/// Where each number of a snapshot stands, up to the first that cannot be read.
pub fn spans(bytes: &[u8]) -> Vec<Span> {
    let mut reader = Reader::new(bytes);
    reader.whole();
    reader.spans
}

struct Reader<'a> {
    bytes: &'a [u8],
    place: usize,
    spans: Vec<Span>,
}

impl<'a> Reader<'a> {
    fn new(bytes: &'a [u8]) -> Self {
        Reader { bytes, place: 0, spans: Vec::new() }
    }

    /// All of it, to its last byte; none is 15.
    fn whole(&mut self) -> Option<Snapshot> {
        if self.number(What::Edition, u32::MAX)? != EDITION {
            return None;
        }
        let record = self.record()?;
        let (mut store, mut second) = (vec![0; STORE], vec![0; SECOND]);
        for slot in record.used_incoming() {
            let packet = &record.incoming_slots[slot];
            let bytes = self.take(stored(packet))?;
            let to = if packet.is_block() { &mut second } else { &mut store[slot * CELL..] };
            to[..bytes.len()].copy_from_slice(bytes);
        }
        (self.place == self.bytes.len()).then_some(Snapshot { record, store, second })
    }

    /// Document 01's order, as SCRIPT.md has the row.
    fn record(&mut self) -> Option<Record> {
        let mut record = Record::zero();
        self.numbers(&mut record, 0..place::FLAGS)?;
        record.sent = self.list(OUTGOING)?;
        record.send_reliable = self.list(OUTGOING)?;
        record.outgoing = self.list(OUTGOING)?;
        record.dispatched = self.list(INCOMING)?;
        self.numbers(&mut record, place::FLAGS..place::EVENT_DATA)?;
        for word in &mut record.words {
            *word = self.other(u32::MAX)?;
        }
        self.numbers(&mut record, place::EVENT_DATA..place::ALL)?;
        let open = record.open_channels().len();
        for channel in &mut record.channels[..open] {
            for number in &mut channel.numbers {
                *number = self.short()?;
            }
            channel.list = self.list(INCOMING)?;
        }
        for slot in record.used_outgoing() {
            record.outgoing_slots[slot] = self.outgoing()?;
        }
        for slot in record.used_incoming() {
            record.incoming_slots[slot] = self.incoming()?;
        }
        for word in &mut record.marks {
            *word = self.other(u32::MAX)?;
        }
        Some(record)
    }

    /// The single numbers at these places.
    fn numbers(&mut self, record: &mut Record, places: Range<usize>) -> Option<()> {
        for place in places {
            record.numbers[place] = self.other(place::limit(place))?;
        }
        Some(())
    }

    /// A list no longer than its pool; any slot number of 16 bits.
    fn list(&mut self, pool: usize) -> Option<List> {
        let length = self.number(What::Length(pool), u16::MAX.into())? as usize;
        let mut list = List::new(pool);
        for cell in list.cells.get_mut(..length)? {
            *cell = self.short()?;
        }
        list.length = length as u16;
        Some(list)
    }

    /// The types' widths are those of op 23, behind the slot's own number.
    fn outgoing(&mut self) -> Option<Outgoing> {
        let mut numbers = [0; 12];
        for (place, number) in numbers.iter_mut().enumerate() {
            let what = if place == outgoing::BYTE { What::Command } else { What::Other };
            *number = self.number(what, outgoing::LIMITS[1 + place])?;
        }
        let kind = match numbers[outgoing::BYTE] as u8 & 15 {
            kind @ 1..=12 => kind,
            _ => return None,
        };
        let fields: Option<Vec<u32>> =
            limits(kind).iter().map(|limit| self.other(*limit)).collect();
        let [reliable, unreliable, sent_time, timeout, queue_time, offset, ..] = numbers;
        let [.., length, attempts, packet, byte, channel, number] = numbers;
        Some(Outgoing {
            reliable: reliable as u16,
            unreliable: unreliable as u16,
            sent_time,
            timeout,
            queue_time,
            offset,
            length: length as u16,
            attempts: attempts as u16,
            packet: packet == 1,
            byte: byte as u8,
            channel: channel as u8,
            number: number as u16,
            kind,
            fields: fields?,
        })
    }

    /// The same of op 24; any byte is allowed.
    fn incoming(&mut self) -> Option<Incoming> {
        let mut numbers = [0; 6];
        for (place, number) in numbers.iter_mut().enumerate() {
            let what = if place == 0 { What::Byte } else { What::Other };
            *number = self.number(what, incoming::LIMITS[1 + place])?;
        }
        let [byte, channel, number, fragments, remaining, length] = numbers;
        let (byte, channel, number) = (byte as u8, channel as u8, number as u16);
        Some(Incoming { byte, channel, number, fragments, remaining, length })
    }

    fn short(&mut self) -> Option<u16> {
        self.other(u16::MAX.into()).map(|number| number as u16)
    }

    fn other(&mut self, limit: u32) -> Option<u32> {
        self.number(What::Other, limit)
    }

    /// The next number, if it is not above its field.
    fn number(&mut self, what: What, limit: u32) -> Option<u32> {
        let (number, after) = groups::number(self.bytes, self.place)?;
        self.spans.push(Span { what, at: self.place..after, limit });
        self.place = after;
        u32::try_from(number).ok().filter(|number| *number <= limit)
    }

    /// The next bytes as they are.
    fn take(&mut self, count: usize) -> Option<&'a [u8]> {
        let bytes = self.bytes.get(self.place..self.place + count)?;
        self.place += count;
        Some(bytes)
    }
}
