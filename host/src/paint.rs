//! The deepest stack of a call: the bytes below the caller are painted, and the lowest one that changed is looked for.

use std::{arch::asm, hint::black_box};

const AREA: usize = 256 * 1024;

/// Two paints: a byte that a call leaves in one paint's own colour shows in the other.
const PAINTS: [u8; 2] = [0xa5, 0x5a];

/// Bytes of stack that a call takes from its return address on, when it is lent this, its answer, and what it leaves.
pub fn deepest<T: Copy>(start: &T, call: fn(&mut T) -> u32) -> (usize, u32, T) {
    let (mut place, mut answer) = (Box::new(*start), 0);
    let depth = PAINTS.map(|paint| {
        *place = *start;
        let (depth, came) = painted(paint, call, &mut place);
        answer = came;
        depth
    });
    (depth[0].max(depth[1]), answer, *place)
}

#[inline(never)]
fn painted<T>(paint: u8, call: fn(&mut T) -> u32, place: &mut T) -> (usize, u32) {
    let top = pointer();
    cover(paint);
    let answer = black_box(call)(place);
    (top - lowest(top, paint), answer)
}

/// The stack pointer of the function that asks.
#[inline(always)]
fn pointer() -> usize {
    let here;
    #[cfg(target_arch = "x86_64")]
    unsafe {
        asm!("mov {}, rsp", out(reg) here, options(nomem, nostack));
    }
    #[cfg(target_arch = "aarch64")] // where this is linted and not run
    unsafe {
        asm!("mov {}, sp", out(reg) here, options(nomem, nostack));
    }
    here
}

/// Paints an area of its own, which lies below its caller's frame.
#[inline(never)]
fn cover(paint: u8) {
    let mut area = [paint; AREA];
    black_box(&mut area);
}

/// The lowest byte below `top` that no longer has the paint.
#[inline(never)]
fn lowest(top: usize, paint: u8) -> usize {
    let floor = top - AREA + 4096;
    (floor..top).find(|at| unsafe { (*at as *const u8).read_volatile() } != paint).unwrap_or(top)
}
