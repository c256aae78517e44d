//! The frames about the snapshot buffer, and how bytes get into it.

use std::io;

use super::writer::EDITION;
use crate::{
    arriving::{start, whole_store},
    frame::Frame,
    model::BUFFER,
    ops::store::whole_second,
    output::Output,
    records::frame,
};

/// The most bytes that a frame of op 35 brings here.
const MOST: usize = 32_768;

/// The settings of the start and a new record; from here on the model answers ops 33 to 36.
pub fn open(output: &mut Output) -> io::Result<()> {
    output.model.snapshots = true;
    start(output)?;
    output.put(&frame(1, vec![]))
}

/// Writes a snapshot of edition 1 into so much room.
pub fn write(room: usize) -> Frame {
    frame(33, vec![EDITION, room as u32])
}

/// The same with all room.
pub fn write_all() -> Frame {
    write(BUFFER)
}

pub fn restore(count: usize) -> Frame {
    frame(34, vec![count as u32])
}

/// So many bytes of the buffer from this place.
pub fn show(first: usize, count: usize) -> Frame {
    frame(36, vec![first as u32, count as u32])
}

/// Both stores' hashes.
pub fn stores(output: &mut Output) -> io::Result<()> {
    output.put(&whole_store())?;
    output.put(&whole_second())
}

/// Puts bytes at a place, in as many frames as they need.
pub fn put(output: &mut Output, place: usize, bytes: &[u8]) -> io::Result<()> {
    for (turn, part) in bytes.chunks(MOST).enumerate() {
        let place = (place + turn * MOST) as u32;
        output.put(&Frame { op: 35, numbers: vec![place], bytes: part.to_vec() })?;
    }
    Ok(())
}

/// Makes these the first bytes of the buffer; what lies there already is not put again.
pub fn lay(output: &mut Output, bytes: &[u8]) -> io::Result<()> {
    let there = &output.model.buffer;
    let differs = |place: &usize| there[*place] != bytes[*place];
    let first = (0..bytes.len()).find(differs);
    let last = (0..bytes.len()).rev().find(differs);
    match (first, last) {
        (Some(first), Some(last)) => put(output, first, &bytes[first..=last]),
        _ => Ok(()),
    }
}

/// Lays these bytes and restores from them.
pub fn carry(output: &mut Output, bytes: &[u8]) -> io::Result<String> {
    lay(output, bytes)?;
    output.ask(&restore(bytes.len()))
}
