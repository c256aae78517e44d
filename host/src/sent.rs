//! The lent walk, wrapped: the structs as C lays them out, and the run passes as a pointer and a length. All are numbers: a
//! flag is a byte, and any but 0 is true.

/// The mark: 0 stays, 1 goes back to outgoing, 2 to send-reliable.
#[repr(C)]
#[derive(Clone, Copy, Debug, PartialEq, Eq)]
pub struct Awaiting {
    pub sent: u32,
    pub timeout: u32,
    pub attempts: u16,
    pub length: u16,
    pub packet: u8,
    pub mark: u8,
}

#[repr(C)]
#[derive(Clone, Copy, Debug)]
pub struct Limits {
    pub ping: u32,
    pub timeout: u32,
    pub minimum: u32,
    pub maximum: u32,
}

#[repr(C)]
#[derive(Clone, Copy, Debug, PartialEq, Eq)]
pub struct Numbers {
    pub earliest: u32,
    pub next: u32,
    pub lost: u32,
    pub transit: u32,
    pub kept: u8,
    pub back: u8,
    pub over: u8,
}

extern "C" {
    fn lyn_walk(
        sent: *mut Awaiting,
        length: usize,
        limits: Limits,
        clock: u32,
        numbers: Numbers,
    ) -> Numbers;
}

/// The numbers after the walk; the run changes in place.
pub fn walk(run: &mut [Awaiting], limits: Limits, clock: u32, numbers: Numbers) -> Numbers {
    unsafe { lyn_walk(run.as_mut_ptr(), run.len(), limits, clock, numbers) }
}
