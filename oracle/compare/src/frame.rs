//! A frame of a script, and the line that answers it.

#[derive(Clone, Default)]
pub struct Frame {
    pub op: u8,
    pub numbers: Vec<u32>,
    pub bytes: Vec<u8>,
}

impl Frame {
    /// The number at this place; one that is missing reads as 0.
    pub fn number(&self, place: usize) -> u32 {
        self.numbers.get(place).copied().unwrap_or(0)
    }

    pub fn encode(&self) -> Vec<u8> {
        let count = u8::try_from(self.numbers.len()).expect("at most 255 numbers");
        let length = u16::try_from(self.bytes.len()).expect("at most 65,535 bytes");
        let mut out = vec![self.op, count];
        out.extend(self.numbers.iter().flat_map(|number| number.to_be_bytes()));
        out.extend(length.to_be_bytes());
        out.extend(&self.bytes);
        out
    }

    /// The first frame of these bytes, and the bytes after it.
    #[cfg(test)]
    pub fn decode(bytes: &[u8]) -> Option<(Self, &[u8])> {
        let (&[op, count], rest) = bytes.split_first_chunk::<2>()?;
        let (numbers, rest) = rest.split_at_checked(4 * usize::from(count))?;
        let (length, rest) = rest.split_first_chunk::<2>()?;
        let (bytes, rest) = rest.split_at_checked(u16::from_be_bytes(*length).into())?;
        let numbers = numbers.chunks_exact(4);
        let numbers = numbers.map(|four| u32::from_be_bytes(four.try_into().expect("four bytes")));
        Some((Frame { op, numbers: numbers.collect(), bytes: bytes.to_vec() }, rest))
    }

    /// The op and these values.
    pub fn line(&self, values: &[u32]) -> String {
        let mut line = self.op.to_string();
        for value in values {
            line.push(' ');
            line.push_str(&value.to_string());
        }
        line
    }

    /// The line of a number that does not fit its parameter.
    pub fn bad(&self) -> String {
        format!("{} bad", self.op)
    }

    /// The line of an op that is not listed.
    pub fn unknown(&self) -> String {
        format!("{} unknown", self.op)
    }
}

#[cfg(test)]
mod tests {
    use super::*;

    #[test]
    fn a_frame_is_laid_out_as_the_script_page_says() {
        let frame = Frame { op: 30, numbers: vec![1, 0x0203_0405], bytes: vec![9, 8] };
        assert_eq!(frame.encode(), [30, 2, 0, 0, 0, 1, 2, 3, 4, 5, 0, 2, 9, 8]);
        assert_eq!((frame.number(0), frame.number(2)), (1, 0));
    }
}
