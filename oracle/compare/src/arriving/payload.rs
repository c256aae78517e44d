//! Every length of a payload where a rule turns, at every place of datagrams that hold it or do not.

use std::io;

use enet::record::Record;

use super::whole_store;
use crate::{
    frame::Frame,
    model::Settings,
    ops::store::whole_second,
    output::Output,
    random::Random,
    records::{self, frame, set},
};

/// The lengths: none, one byte, and around the end of a cell.
const LENGTHS: [u32; 5] = [0, 1, 4_095, 4_096, 4_097];

/// The frame of a length and a place, without its bytes, and the store that it is kept in, 0 or 1.
pub struct Asked<F> {
    pub frame: F,
    pub store: u32,
}

/// Makes each of these arrivals on the record.
pub fn write<F: Fn(u32, u32) -> Frame>(
    output: &mut Output,
    random: &mut Random,
    record: &Record,
    asked: &Asked<F>,
) -> io::Result<()> {
    for length in LENGTHS {
        for packet in limits(length) {
            output.put(&set(&Settings { packet, ..Settings::START }))?;
            // Just as long, one byte short, with bytes to spare, and empty.
            for size in [length, length.saturating_sub(1), length + 9, 0] {
                for place in places(length, size) {
                    records::make(output, record)?;
                    let frame = (asked.frame)(length, place);
                    output.put(&Frame { bytes: random.bytes(size as usize), ..frame })?;
                }
                look(output, length, asked.store)?;
            }
        }
    }
    output.put(&set(&Settings::START))
}

/// Settings of the maximum packet around the length.
fn limits(length: u32) -> Vec<u32> {
    (length.saturating_sub(1)..=length + 1).filter(|packet| *packet > 0).collect()
}

/// The start, the middle, where the payload just ends with the datagram, one after that, the end, one past it.
fn places(length: u32, size: u32) -> Vec<u32> {
    let last = size.saturating_sub(length);
    let mut places = vec![0, size / 2, last, last + 1, size, size + 1, u32::MAX];
    places.sort();
    places.dedup();
    places
}

/// The first cell or block where the payload starts and ends, and the whole store.
fn look(output: &mut Output, length: u32, store: u32) -> io::Result<()> {
    output.put(&frame(17, vec![0, 3, store]))?;
    output.put(&frame(17, vec![length.saturating_sub(2), 4, store]))?;
    output.put(&if store == 0 { whole_store() } else { whole_second() })
}
