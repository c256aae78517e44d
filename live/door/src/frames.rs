//! Frames to replay and lines from it, as SCRIPT.md writes them.

use crate::Fallible;

/// op, count, numbers, length, bytes.
pub fn frame(op: u8, numbers: &[u32], bytes: &[u8]) -> Vec<u8> {
    let mut frame = vec![op, numbers.len() as u8];
    for number in numbers {
        frame.extend(number.to_be_bytes());
    }
    frame.extend((bytes.len() as u16).to_be_bytes());
    frame.extend(bytes);
    frame
}

/// A line's numbers after the op, and the record's hash where the op is a call.
#[derive(Debug, PartialEq)]
pub struct Line {
    pub numbers: Vec<u32>,
    pub hash: Option<u32>,
}

/// Anything but the op's own numbers (bad, unknown, short, nothing) is the host's mistake, and an error.
pub fn line(op: u8, text: &str) -> Fallible<Line> {
    let wrong = || format!("replay answered op {op} with '{}'", text.trim_end());
    let (left, hash) = match text.trim_end().split_once(" # ") {
        Some((left, hash)) => (left, Some(hash.parse().map_err(|_| wrong())?)),
        None => (text.trim_end(), None),
    };
    let mut numbers = Vec::new();
    for word in left.split(' ') {
        numbers.push(word.parse().map_err(|_| wrong())?);
    }
    if numbers.is_empty() || numbers.remove(0) != u32::from(op) {
        return Err(wrong());
    }
    Ok(Line { numbers, hash })
}

#[cfg(test)]
mod tests {
    use super::*;

    #[test]
    fn a_frame_is_big_endian() {
        assert_eq!(frame(5, &[0, 300], &[7]), [5, 2, 0, 0, 0, 0, 0, 0, 1, 44, 0, 1, 7]);
    }

    #[test]
    fn a_line_with_and_without_hash() {
        assert_eq!(line(13, "13 0 0 # 77\n"), Ok(Line { numbers: vec![0, 0], hash: Some(77) }));
        assert_eq!(line(17, "17 1 2\n"), Ok(Line { numbers: vec![1, 2], hash: None }));
    }

    #[test]
    fn anything_else_is_an_error() {
        for text in ["", "5 bad", "5 unknown", "short", "6 0"] {
            assert!(line(5, text).is_err(), "{text}");
        }
    }
}
