//! The calls on a lent record, each once, as `crates/measure` exports them: the record passes as a pointer, a store and a
//! datagram as a pointer and a length.

use std::ptr::addr_of_mut;

use crate::{record::Record, WHOLE};

extern "C" {
    fn measure_sound(words: *const u32) -> u32;
    fn measure_reset(words: *mut u32, mtu: u32) -> u32;
    fn measure_begin(words: *mut u32, mtu: u32, count: u32) -> u32;
    fn measure_state(words: *mut u32, mtu: u32, state: u32) -> u32;
    fn measure_ping(words: *mut u32, mtu: u32) -> u32;
    fn measure_setup(words: *mut u32) -> u32;
    fn measure_send(words: *mut u32, mtu: u32, channel: u8, length: u32, flags: u32) -> u32;
    fn measure_step(words: *mut u32, list: u32, time: u32) -> u32;
    fn measure_acknowledge(words: *mut u32, channel: u8, number: u16, sent: u16, clock: u32)
        -> u32;
    fn measure_check(words: *mut u32, clock: u32) -> u32;
    fn measure_throttle(words: *mut u32, sample: u32) -> u32;
    fn measure_unsequenced(
        words: *mut u32,
        store: *mut u8,
        room: usize,
        datagram: *const u8,
        end: usize,
        group: u16,
        length: u32,
    ) -> u32;
    fn measure_reliable(
        words: *mut u32,
        store: *mut u8,
        room: usize,
        datagram: *const u8,
        end: usize,
        number: u16,
        length: u32,
    ) -> u32;
    fn measure_fragment(
        words: *mut u32,
        store: *const u8,
        room: usize,
        second: *mut u8,
        second_room: usize,
        datagram: *const u8,
        end: usize,
        length: u16,
        number: u32,
        total: u32,
        offset: u32,
    ) -> u32;
    fn measure_dispatch(words: *mut u32, channel: u8) -> u32;
    fn measure_receive(words: *mut u32) -> u32;
    fn measure_link_send(
        words: *mut u32,
        store: *mut u8,
        room: usize,
        second: *mut u8,
        second_room: usize,
        datagram: *const u8,
        end: usize,
        length: u32,
        flags: u32,
    ) -> u32;
    fn measure_link(
        words: *mut u32,
        store: *mut u8,
        room: usize,
        second: *mut u8,
        second_room: usize,
        datagram: *const u8,
        end: usize,
        kind: u32,
        a: u32,
        b: u32,
    ) -> u32;
    fn measure_value(
        words: *mut u32,
        store: *mut u8,
        room: usize,
        second: *mut u8,
        second_room: usize,
        datagram: *const u8,
        end: usize,
        kind: u32,
        a: u32,
        b: u32,
    ) -> u32;
    fn measure_copies(words: *mut u32);
}

pub const MTU: u32 = 1_392;
pub const CONNECTED: u32 = 5;
pub const RELIABLE: u32 = 1;

/// The list that a reliable packet goes to.
const SEND_RELIABLE: u32 = 1;

/// When every command is sent.
pub const SENT: u32 = 1_000;

const ROOM: usize = 49_152;

static mut STORE: [u8; ROOM] = [0; ROOM];

/// The store of a block.
const SECOND_ROOM: usize = 32_768;

static mut SECOND: [u8; SECOND_ROOM] = [0; SECOND_ROOM];

pub static DATAGRAM: [u8; WHOLE as usize] = [1; WHOLE as usize];

pub fn sound(words: &mut Record) -> u32 {
    unsafe { measure_sound(words.as_ptr()) }
}

pub fn reset(words: &mut Record) -> u32 {
    unsafe { measure_reset(words.as_mut_ptr(), MTU) }
}

pub fn begin(words: &mut Record) -> u32 {
    unsafe { measure_begin(words.as_mut_ptr(), MTU, 1) }
}

/// Set state, to connected.
pub fn state(words: &mut Record, mtu: u32) -> u32 {
    unsafe { measure_state(words.as_mut_ptr(), mtu, CONNECTED) }
}

pub fn ping(words: &mut Record) -> u32 {
    unsafe { measure_ping(words.as_mut_ptr(), MTU) }
}

pub fn setup(words: &mut Record) -> u32 {
    unsafe { measure_setup(words.as_mut_ptr()) }
}

/// A reliable packet of this length.
pub fn send(words: &mut Record, mtu: u32, length: u32) -> u32 {
    unsafe { measure_send(words.as_mut_ptr(), mtu, 0, length, RELIABLE) }
}

pub fn step(words: &mut Record) -> u32 {
    unsafe { measure_step(words.as_mut_ptr(), SEND_RELIABLE, SENT) }
}

/// Of this number, when half the time was over.
pub fn acknowledge(words: &mut Record, number: u16) -> u32 {
    unsafe { measure_acknowledge(words.as_mut_ptr(), 0, number, SENT as u16, SENT + 250) }
}

pub fn check(words: &mut Record, clock: u32) -> u32 {
    unsafe { measure_check(words.as_mut_ptr(), clock) }
}

pub fn throttle(words: &mut Record, sample: u32) -> u32 {
    unsafe { measure_throttle(words.as_mut_ptr(), sample) }
}

pub fn unsequenced(words: &mut Record, group: u16) -> u32 {
    let (words, bytes, end) = (words.as_mut_ptr(), DATAGRAM.as_ptr(), DATAGRAM.len());
    unsafe { measure_unsequenced(words, store(), ROOM, bytes, end, group, WHOLE) }
}

pub fn reliable(words: &mut Record, number: u16) -> u32 {
    let (words, bytes, end) = (words.as_mut_ptr(), DATAGRAM.as_ptr(), DATAGRAM.len());
    unsafe { measure_reliable(words, store(), ROOM, bytes, end, number, WHOLE) }
}

/// A piece of a block of two; both bring as much.
pub fn fragment(words: &mut Record, piece: u32) -> u32 {
    let (words, bytes, end) = (words.as_mut_ptr(), DATAGRAM.as_ptr(), DATAGRAM.len());
    let (length, total, offset) = (WHOLE as u16, 2 * WHOLE, piece * WHOLE);
    unsafe {
        measure_fragment(
            words,
            store(),
            ROOM,
            second(),
            SECOND_ROOM,
            bytes,
            end,
            length,
            piece,
            total,
            offset,
        )
    }
}

pub fn dispatch(words: &mut Record) -> u32 {
    unsafe { measure_dispatch(words.as_mut_ptr(), 0) }
}

pub fn receive(words: &mut Record) -> u32 {
    unsafe { measure_receive(words.as_mut_ptr()) }
}

/// The kinds of calls through the link: a send of this length and with these flags, a timeout check at this time, a receive.
#[derive(Clone, Copy)]
pub enum Kind {
    Send = 0,
    Check = 2,
    Receive = 4,
}

/// A call of a kind that the compiler of the link does not know, with its two numbers.
pub fn link(words: &mut Record, kind: Kind, a: u32, b: u32) -> u32 {
    let (words, bytes, end) = (words.as_mut_ptr(), DATAGRAM.as_ptr(), DATAGRAM.len());
    unsafe {
        measure_link(words, store(), ROOM, second(), SECOND_ROOM, bytes, end, kind as u32, a, b)
    }
}

/// The same on a record by value: read from its numbers, and written back.
pub fn value(words: &mut Record, kind: Kind, a: u32, b: u32) -> u32 {
    let (words, bytes, end) = (words.as_mut_ptr(), DATAGRAM.as_ptr(), DATAGRAM.len());
    unsafe {
        measure_value(words, store(), ROOM, second(), SECOND_ROOM, bytes, end, kind as u32, a, b)
    }
}

/// That reading and writing alone.
pub fn copies(words: &mut Record) -> u32 {
    unsafe { measure_copies(words.as_mut_ptr()) };
    0
}

/// The send of a packet that goes out whole, as data that the compiler knows.
pub fn link_send(words: &mut Record) -> u32 {
    let (words, bytes, end) = (words.as_mut_ptr(), DATAGRAM.as_ptr(), DATAGRAM.len());
    unsafe {
        measure_link_send(words, store(), ROOM, second(), SECOND_ROOM, bytes, end, WHOLE, RELIABLE)
    }
}

#[allow(unused_unsafe)] // an older compiler wants it
fn store() -> *mut u8 {
    unsafe { addr_of_mut!(STORE).cast() }
}

#[allow(unused_unsafe)] // likewise
fn second() -> *mut u8 {
    unsafe { addr_of_mut!(SECOND).cast() }
}
