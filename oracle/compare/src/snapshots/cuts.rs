//! The set `snapshot-cut`: snapshots cut at every place, and with a byte more.

use std::io;

use enet::record::Record;

use super::{
    draw,
    laying::{carry, lay, open, restore, stores},
};
use crate::{
    model::BUFFER,
    output::Output,
    random::Random,
    records::{frame, harm::HARMS},
};

/// The seed of all that the set leaves open.
const SEED: u64 = 1;

/// The byte behind a snapshot.
const MORE: [u8; 6] = [0, 1, 127, 128, 129, 255];

/// All of the set.
pub fn write_set(output: &mut Output) -> io::Result<()> {
    let random = &mut Random::new(SEED);
    open(output)?;
    for record in records(random) {
        let bytes = draw::snapshot(random, &record);
        every_cut(output, &bytes)?;
        one_more(output, &bytes)?;
    }
    let longest = draw::longest(random);
    let bytes = draw::snapshot(random, &longest);
    some_cuts(output, &bytes)?;
    one_more(output, &bytes)?;
    for (_, make) in HARMS {
        let record = make(random);
        let bytes = draw::snapshot(random, &record);
        some_cuts(output, &bytes)?;
    }
    stores(output)?;
    output.put(&restore(BUFFER))?;
    output.put(&restore(BUFFER + 1))
}

/// A thin slice of it.
pub fn write_slice(output: &mut Output) -> io::Result<()> {
    let random = &mut Random::new(SEED);
    open(output)?;
    let bytes = draw::snapshot(random, &Record::fresh(1_392));
    every_cut(output, &bytes)?;
    one_more(output, &bytes)?;
    output.put(&restore(BUFFER + 1))
}

/// One of everything, and drawn ones.
fn records(random: &mut Random) -> Vec<Record> {
    let mut records = vec![Record::fresh(576), draw::everything(random)];
    for _ in 0..10 {
        let mut record = draw::any(random);
        draw::thin(random, &mut record);
        records.push(record);
    }
    records
}

/// Every count up to its own; the record must stay until then.
fn every_cut(output: &mut Output, bytes: &[u8]) -> io::Result<()> {
    output.put(&frame(1, vec![]))?;
    lay(output, bytes)?;
    (0..=bytes.len()).try_for_each(|count| output.put(&restore(count)))
}

/// The counts around where the numbers end and where the bytes end, of a snapshot that may be damaged.
fn some_cuts(output: &mut Output, bytes: &[u8]) -> io::Result<()> {
    lay(output, bytes)?;
    let numbers = super::reader::spans(bytes).last().map_or(0, |last| last.at.end);
    for end in [numbers, bytes.len()] {
        for count in end.saturating_sub(2)..end + 2 {
            output.put(&restore(count))?;
        }
    }
    Ok(())
}

fn one_more(output: &mut Output, bytes: &[u8]) -> io::Result<()> {
    let mut longer = bytes.to_vec();
    longer.push(0);
    for more in MORE {
        longer[bytes.len()] = more;
        carry(output, &longer)?;
    }
    Ok(())
}

#[cfg(test)]
mod tests {
    use super::*;
    use crate::met::{assert_met, replies};

    #[test]
    fn the_set_meets_every_reply() {
        let met = replies(write_set);
        assert_met(&met, 10, &["34 0", "34 13", "34 15"]);
        assert_met(&met, 1, &["34 bad"]);
    }
}
