//! The exports, wrapped: a byte slice passes as a pointer and a length.

use enet::Throttle;

extern "C" {
    fn lyn_throttle(
        value: u32,
        limit: u32,
        acceleration: u32,
        deceleration: u32,
        last: u32,
        variance: u32,
        sample: u32,
    ) -> u64;
    fn lyn_turn(throttle: *mut Throttle, sample: u32) -> u64;
    fn lyn_window(base: u16, group: u16, words: *mut u8, length: usize) -> u32;
    fn lyn_mark(group: u16, words: *mut u8, length: usize) -> u32;
    fn lyn_read(bytes: *const u8, length: usize, place: usize, row: *mut u8, room: usize) -> u32;
}

/// The new value and the turn: 0 held, 1 raised, 2 lowered.
pub fn throttle(t: Throttle, sample: u32) -> (u32, u32) {
    let reply = unsafe {
        lyn_throttle(t.value, t.limit, t.acceleration, t.deceleration, t.last, t.variance, sample)
    };
    (reply as u32, (reply >> 32) as u32)
}

/// The turn, as above; the numbers change in place.
pub fn turn(t: &mut Throttle, sample: u32) -> u32 {
    unsafe { lyn_turn(t, sample) as u32 }
}

/// The whole reply; the buffer changes in place.
pub fn window(base: u16, group: u16, words: &mut [u8]) -> u32 {
    unsafe { lyn_window(base, group, words.as_mut_ptr(), words.len()) }
}

pub fn mark(group: u16, words: &mut [u8]) -> u32 {
    unsafe { lyn_mark(group, words.as_mut_ptr(), words.len()) }
}

pub fn read(bytes: &[u8], place: usize, row: &mut [u8]) -> u32 {
    unsafe { lyn_read(bytes.as_ptr(), bytes.len(), place, row.as_mut_ptr(), row.len()) }
}

/// Numbers to the exports' buffers and back: four bytes each, big-endian.
pub fn to_bytes<const N: usize>(numbers: &[u32]) -> [u8; N] {
    let mut bytes = [0; N];
    for (four, number) in bytes.chunks_exact_mut(4).zip(numbers) {
        four.copy_from_slice(&number.to_be_bytes());
    }
    bytes
}

pub fn to_numbers(bytes: &[u8]) -> Vec<u32> {
    bytes.chunks_exact(4).map(|four| u32::from_be_bytes(four.try_into().unwrap())).collect()
}
