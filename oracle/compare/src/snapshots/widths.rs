//! The set `snapshot-width`: every number of a snapshot at its width's end and above, in forms that are not the shortest, and
//! every edition.

use std::io;

use enet::record::Record;

use super::{
    draw,
    groups::{self, groups, padded, MOST},
    laying::{carry, open, stores},
    reader::{spans, Span},
};
use crate::{arriving::connected, output::Output, random::Random, records::frame};

/// The seed of all that the set leaves open.
const SEED: u64 = 1;

/// Numbers in the place of the edition.
const EDITIONS: [u64; 16] = [
    0,
    1,
    2,
    3,
    127,
    128,
    129,
    255,
    256,
    257,
    16_383,
    16_384,
    65_537,
    u32::MAX as u64,
    (1 << 32) + 1,
    (1 << 35) - 1,
];

/// All of the set.
pub fn write_set(output: &mut Output) -> io::Result<()> {
    let random = &mut Random::new(SEED);
    open(output)?;
    for record in [Record::fresh(1_392), draw::everything(random)] {
        let bytes = draw::snapshot(random, &record);
        for span in spans(&bytes) {
            every_form(output, &bytes, &span)?;
        }
        editions(output, &bytes)?;
        stores(output)?;
        output.put(&frame(15, vec![]))?;
    }
    Ok(())
}

/// A thin slice of it: the numbers of two channels and a few others.
pub fn write_slice(output: &mut Output) -> io::Result<()> {
    let random = &mut Random::new(SEED);
    open(output)?;
    let bytes = draw::snapshot(random, &connected(2));
    for span in spans(&bytes).iter().step_by(7) {
        every_form(output, &bytes, span)?;
    }
    editions(output, &bytes)
}

/// Every other number and form in the place of this one.
fn every_form(output: &mut Output, bytes: &[u8], span: &Span) -> io::Result<()> {
    let old = groups::number(bytes, span.at.start).expect("it was read").0;
    let limit = u64::from(span.limit);
    let values = [0, limit, limit + 1, u32::MAX.into(), 1 << 32, (1 << 35) - 1, 1 << 35];
    let mut forms: Vec<Vec<u8>> = values.into_iter().map(groups).collect();
    // One group of 0 more, the most that there may be, and a sixth.
    forms.extend([span.at.len() + 1, MOST, MOST + 1].map(|count| padded(old, count)));
    forms.push(padded(limit, groups(limit).len() + 1));
    for form in forms {
        carry(output, &in_place(bytes, span, &form))?;
    }
    Ok(())
}

/// Another edition's number before the same record.
fn editions(output: &mut Output, bytes: &[u8]) -> io::Result<()> {
    for edition in EDITIONS {
        let mut other = groups(edition);
        other.extend(&bytes[1..]);
        carry(output, &other)?;
    }
    Ok(())
}

/// The snapshot with this form in the place of a number.
pub fn in_place(bytes: &[u8], span: &Span, form: &[u8]) -> Vec<u8> {
    let mut other = bytes.to_vec();
    other.splice(span.at.clone(), form.iter().copied());
    other
}

#[cfg(test)]
mod tests {
    use super::*;
    use crate::{
        met::{assert_met, replies},
        snapshots::reader::read,
    };

    #[test]
    fn the_set_meets_every_reply() {
        let met = replies(write_set);
        assert_met(&met, 50, &["34 0", "34 13", "34 15"]);
    }

    #[test]
    fn a_number_above_its_field_is_15_and_at_its_end_mostly_not() {
        let random = &mut Random::new(SEED);
        let record = draw::everything(random);
        let bytes = draw::snapshot(random, &record);
        let answer = |span: &Span, value: u64| {
            read(&in_place(&bytes, span, &groups(value))).err().unwrap_or(0)
        };
        let spans = spans(&bytes);
        let above = |span: &&Span| answer(span, u64::from(span.limit) + 1) == 15;
        assert_eq!(spans.iter().filter(above).count(), spans.len());
        let at = spans.iter().filter(|span| answer(span, span.limit.into()) != 15);
        // But for the edition, the lists, the fields that a command's byte or a list's slot says are there.
        assert!(at.count() > spans.len() * 3 / 4);
    }
}
