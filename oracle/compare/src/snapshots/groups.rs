//! Numbers in groups of seven bits, low group first, 128 added to each but the last.

/// The most groups of a number.
pub const MOST: usize = 5;

/// What is added to each group but the last, and the bits of one.
const MORE: u8 = 128;
const BITS: usize = 7;

/// The number's shortest form; one above 2^35 - 1 has more groups than are read.
pub fn groups(number: u64) -> Vec<u8> {
    let (low, rest) = (number as u8 % MORE, number >> BITS);
    if rest == 0 {
        return vec![low];
    }
    let mut groups = vec![low + MORE];
    groups.extend(self::groups(rest));
    groups
}

/// The number in so many groups, of which the last ones are 0 where it needs fewer.
pub fn padded(number: u64, count: usize) -> Vec<u8> {
    let mut groups = groups(number);
    while groups.len() < count {
        *groups.last_mut().expect("a number has a group") += MORE;
        groups.push(0);
    }
    groups
}

/// The number that begins at this place, and the place behind it: none if it is cut, is over-long or has a sixth group.
pub fn number(bytes: &[u8], place: usize) -> Option<(u64, usize)> {
    let groups = &bytes[place..bytes.len().min(place + MOST)];
    let count = 1 + groups.iter().position(|group| *group < MORE)?;
    let number = groups[..count]
        .iter()
        .rev()
        .fold(0, |number, group| number << BITS | u64::from(group % MORE));
    // A last group of 0 says nothing, unless it is the only one.
    (count == 1 || groups[count - 1] != 0).then_some((number, place + count))
}

#[cfg(test)]
mod tests {
    use super::*;
    use crate::random::Random;

    #[test]
    fn the_forms_are_as_c_12_says() {
        assert_eq!(groups(0), [0]);
        assert_eq!(groups(127), [127]);
        assert_eq!(groups(128), [128, 1]);
        assert_eq!(groups(16_384), [128, 128, 1]);
        assert_eq!(groups(u32::MAX.into()), [255, 255, 255, 255, 15]);
        assert_eq!(groups((1 << 35) - 1), [255, 255, 255, 255, 127]);
        assert_eq!(padded(1, 3), [129, 128, 0]);
        assert_eq!(padded(1 << 35, 6), groups(1 << 35));
    }

    #[test]
    fn a_number_is_read_in_its_shortest_form_alone() {
        let mut random = Random::new(1);
        for _ in 0..20_000 {
            let value = random.next() >> (29 + random.below(35));
            let form = groups(value);
            assert_eq!(number(&form, 0), Some((value, form.len())));
            assert!((0..form.len()).all(|cut| number(&form[..cut], 0).is_none()));
            for count in form.len() + 1..=MOST + 1 {
                assert_eq!(number(&padded(value, count), 0), None);
            }
        }
        assert_eq!(number(&groups(1 << 35), 0), None);
        assert_eq!(number(&[5, 128, 1, 9], 1), Some((128, 3)));
        assert_eq!(number(&[5], 1), None);
    }
}
