//! Reports: what a door says, made so that each end can tell whether one is missing, doubled, out of order or changed.

use std::fmt;
use std::str::FromStr;

#[derive(Debug, Clone, Copy, PartialEq, Eq, Hash, PartialOrd, Ord)]
pub enum Kind {
    Reliable,
    Unsequenced,
}

impl Kind {
    pub fn letter(self) -> char {
        match self {
            Kind::Reliable => 'R',
            Kind::Unsequenced => 'U',
        }
    }

    /// Reliable reports go on channel 0, unsequenced ones on channel 1.
    pub fn channel(self) -> u32 {
        self as u32
    }

    /// The send's flags: 1 reliable, 2 unsequenced.
    pub fn flags(self) -> u32 {
        1 + self as u32
    }
}

/// Which report.
#[derive(Debug, Clone, Copy, PartialEq, Eq, Hash, PartialOrd, Ord)]
pub struct Name {
    pub kind: Kind,
    pub index: u32,
}

impl fmt::Display for Name {
    fn fmt(&self, to: &mut fmt::Formatter) -> fmt::Result {
        write!(to, "{}{}", self.kind.letter(), self.index)
    }
}

impl FromStr for Name {
    type Err = String;

    fn from_str(text: &str) -> Result<Name, String> {
        let wrong = || format!("{text} names no report");
        let kind = match text.chars().next() {
            Some('R') => Kind::Reliable,
            Some('U') => Kind::Unsequenced,
            _ => return Err(wrong()),
        };
        Ok(Name { kind, index: text[1..].parse().map_err(|_| wrong())? })
    }
}

const HEAD: usize = 5;
/// A report's length where a run says nothing else; an unsequenced one never has another, since one above a fragment's length goes reliable.
pub const SHORT: usize = 48;

/// How long a report of a kind is where reliable ones have that length.
pub fn length_of(kind: Kind, length: usize) -> usize {
    if kind == Kind::Reliable {
        length
    } else {
        SHORT
    }
}

/// Bytes of seed, letter and index.
pub fn pattern(seed: u32, letter: char, index: u32) -> impl Iterator<Item = u8> {
    let mut state =
        seed.wrapping_mul(2_654_435_761) ^ index.wrapping_mul(40_503) ^ letter as u32 ^ 0x9e37_79b9;
    std::iter::repeat_with(move || {
        state = state.wrapping_mul(1_664_525).wrapping_add(1_013_904_223);
        (state >> 24) as u8
    })
}

/// Kind, index in four bytes, and a pattern of seed, kind and index; the gateway makes the same.
pub fn bytes(seed: u32, report: Name, length: usize) -> Vec<u8> {
    let mut bytes = vec![report.kind.letter() as u8];
    bytes.extend(report.index.to_be_bytes());
    let rest = pattern(seed, report.kind.letter(), report.index);
    bytes.extend(rest.take(length.saturating_sub(HEAD)));
    bytes
}

/// Which report came back on a channel, and how many of its bytes are wrong; another length or channel than its own counts as one.
/// `length` is that of reliable reports.
pub fn check(seed: u32, channel: u32, length: usize, bytes: &[u8]) -> (Name, usize) {
    let kind = if bytes.first() == Some(&b'U') { Kind::Unsequenced } else { Kind::Reliable };
    let index =
        bytes.get(1..HEAD).map_or(u32::MAX, |at| u32::from_be_bytes([at[0], at[1], at[2], at[3]]));
    let report = Name { kind, index };
    let differ = bytes
        .iter()
        .skip(HEAD)
        .zip(pattern(seed, kind.letter(), index))
        .filter(|(got, made)| *got != made)
        .count();
    (
        report,
        differ
            + usize::from(bytes.len() != length_of(kind, length))
            + usize::from(channel != kind.channel()),
    )
}

#[cfg(test)]
mod tests {
    use super::*;

    const REPORT: Name = Name { kind: Kind::Unsequenced, index: 300 };

    #[test]
    fn a_report_comes_back_right() {
        assert_eq!(check(9, 1, 48, &bytes(9, REPORT, 48)), (REPORT, 0));
        let long = Name { kind: Kind::Reliable, index: 2 };
        assert_eq!(check(9, 0, 400, &bytes(9, long, 400)), (long, 0));
        assert_eq!(check(9, 0, 5000, &bytes(9, long, 5000)), (long, 0));
    }

    #[test]
    fn a_changed_byte_a_cut_end_and_another_channel_are_seen() {
        let mut changed = bytes(9, REPORT, 48);
        changed[20] ^= 1;
        assert_eq!(check(9, 1, 48, &changed), (REPORT, 1));
        assert_eq!(check(9, 1, 48, &bytes(9, REPORT, 47)), (REPORT, 1));
        assert_eq!(check(9, 0, 48, &bytes(9, REPORT, 48)), (REPORT, 1));
        assert!(check(8, 1, 48, &bytes(9, REPORT, 48)).1 > 0);
    }

    #[test]
    fn names_are_read_as_written() {
        assert_eq!("U300".parse(), Ok(REPORT));
        assert_eq!(REPORT.to_string(), "U300");
        assert!("X1".parse::<Name>().is_err());
    }
}
