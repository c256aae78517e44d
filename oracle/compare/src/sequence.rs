//! Random sequences of calls, one after another, each from a start of its own.

use std::io;

use crate::{
    frame::Frame,
    output::Output,
    random::Random,
    records::{frame, set, settings, PACKET},
};

/// Settings that refuse every call: an MTU and a maximum packet.
pub const BAD: [(u32, u32); 3] = [(575, PACKET), (4_097, PACKET), (576, 0)];

/// A script of so many calls: `open` writes what a sequence starts from and says how many calls it has, unless fewer are
/// left, and `call` makes each of them.
pub fn write<Q>(
    output: &mut Output,
    seed: u64,
    count: u64,
    open: impl Fn(&mut Output, &mut Random) -> io::Result<(Q, u64)>,
    call: impl Fn(&mut Q, &mut Output, &mut Random) -> io::Result<()>,
) -> io::Result<()> {
    let mut random = Random::new(seed);
    let mut left = count;
    while left > 0 {
        let (mut sequence, length) = open(output, &mut random)?;
        let calls = left.min(length);
        for _ in 0..calls {
            call(&mut sequence, output, &mut random)?;
        }
        left -= calls;
    }
    Ok(())
}

/// The line of a call, which is made once in so many times under bad settings.
pub fn ask(
    output: &mut Output,
    random: &mut Random,
    asked: &Frame,
    times: u64,
    bad: &[(u32, u32)],
) -> io::Result<String> {
    if !random.once_in(times) {
        return output.ask(asked);
    }
    let kept = output.model.settings;
    let (mtu, packet) = random.pick(bad);
    output.put(&settings(mtu, packet))?;
    let line = output.ask(asked)?;
    output.put(&set(&kept))?;
    Ok(line)
}

/// Now and then the whole record.
pub fn look(output: &mut Output, random: &mut Random) -> io::Result<()> {
    if random.once_in(16) {
        output.put(&frame(15, vec![]))?;
    }
    Ok(())
}
