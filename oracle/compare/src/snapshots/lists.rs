//! The set `snapshot-list`: every list at its pool's length and above, with slots that do not exist or stand twice.

use std::io;

use enet::record::{Record, INCOMING, OUTGOING};

use super::{
    draw,
    groups::groups,
    laying::{carry, open, stores},
    reader::{spans, Span, What},
    widths::in_place,
};
use crate::{
    output::Output,
    random::Random,
    records::sound::{shaped, Shape},
};

/// The seed of all that the set leaves open.
const SEED: u64 = 1;

/// All of the set.
pub fn write_set(output: &mut Output) -> io::Result<()> {
    let random = &mut Random::new(SEED);
    open(output)?;
    for list in 0..LISTS {
        for length in [0, 1, pool(list) - 1, pool(list)] {
            let mut record = shaped(random, &shape(list, length));
            draw::thin(random, &mut record);
            write_list(output, random, &record, list)?;
        }
    }
    stores(output)
}

/// A thin slice of it: a channel's list that is full, and a short one of sent.
pub fn write_slice(output: &mut Output) -> io::Result<()> {
    let random = &mut Random::new(SEED);
    open(output)?;
    for (list, length) in [(0, 2), (LISTS - 1, INCOMING)] {
        let mut record = shaped(random, &shape(list, length));
        draw::thin(random, &mut record);
        write_list(output, random, &record, list)?;
    }
    Ok(())
}

/// The three outgoing lists, dispatched, and the channels', in the order of the row.
const LISTS: usize = 12;

fn pool(list: usize) -> usize {
    if list < 3 {
        OUTGOING
    } else {
        INCOMING
    }
}

/// Eight channels, and so many in this list.
fn shape(list: usize, length: usize) -> Shape {
    let mut lengths = [0; LISTS];
    lengths[list] = length;
    let [sent, send_reliable, outgoing, dispatched, ref channels @ ..] = lengths;
    Shape { sent, send_reliable, outgoing, dispatched, channels: channels.to_vec() }
}

/// The list as it is, with other lengths before the same slots, and with other slots behind the length.
fn write_list(
    output: &mut Output,
    random: &mut Random,
    record: &Record,
    list: usize,
) -> io::Result<()> {
    let bytes = draw::snapshot(random, record);
    carry(output, &bytes)?;
    let spans = spans(&bytes);
    let at = spans.iter().enumerate().filter(|(_, span)| matches!(span.what, What::Length(_)));
    let at = at.map(|(place, _)| place).nth(list).expect("there are twelve lists");
    let length = usize::from(bytes[spans[at].at.start]);
    let pool = pool(list);
    for other in [0, 1, length + 1, pool - 1, pool, pool + 1, 127, 128, 65_535, 65_536] {
        carry(output, &in_place(&bytes, &spans[at], &groups(other as u64)))?;
    }
    longer(output, &bytes, &spans[at], length)?;
    for slot in &spans[at + 1..=at + length] {
        for other in [0, pool - 1, pool, 255, 65_535, 65_536] {
            carry(output, &in_place(&bytes, slot, &groups(other as u64)))?;
        }
    }
    Ok(())
}

/// One slot more in the list: its first once more, one that may be free, one that does not exist; and more than the pool has.
fn longer(output: &mut Output, bytes: &[u8], span: &Span, length: usize) -> io::Result<()> {
    let first = bytes[span.at.end];
    let What::Length(pool) = span.what else {
        unreachable!("a list's length");
    };
    for slot in [first, 0, pool as u8 - 1, pool as u8] {
        let longer = [length as u8 + 1, slot];
        carry(output, &in_place(bytes, span, &longer))?;
    }
    // As many slots as the length says, all above the pool's number of them.
    let mut above = vec![pool as u8 + 1];
    above.extend(vec![first; pool + 1 - length]);
    carry(output, &in_place(bytes, span, &above)).map(drop)
}

#[cfg(test)]
mod tests {
    use super::*;
    use crate::met::{assert_met, replies};

    #[test]
    fn the_set_meets_every_reply() {
        let met = replies(write_set);
        assert_met(&met, 48, &["34 0", "34 13", "34 15"]);
    }
}
