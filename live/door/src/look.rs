//! What a host looks at in the record: some numbers of op 15's row, by SCRIPT.md's order.

use crate::Fallible;

pub const OUTGOING_SLOTS: usize = 32;
pub const INCOMING_SLOTS: usize = 12;

#[derive(Debug, Default, Clone, PartialEq)]
pub struct Look {
    pub channel_count: u32,
    pub next_timeout: u32,
    pub packet_throttle: u32,
    pub throttle_acceleration: u32,
    pub throttle_deceleration: u32,
    pub throttle_interval: u32,
    pub ping_interval: u32,
    pub round_trip: u32,
    pub mtu: u32,
    pub in_transit: u32,
    pub sent: usize,
    pub send_reliable: usize,
    pub outgoing: usize,
    /// Incoming slots in use.
    pub incoming: usize,
    pub host_count: u32,
    pub incoming_group: u32,
    pub outgoing_group: u32,
    /// Each channel's outgoing reliable number: the last that was given.
    pub given_numbers: Vec<u32>,
    /// Each channel's incoming reliable number: the last that was dispatched.
    pub last_numbers: Vec<u32>,
    /// Which pieces of a block are there; 0 where there is no block.
    pub marks: [u32; 2],
}

impl Look {
    pub fn free_outgoing(&self) -> usize {
        OUTGOING_SLOTS.saturating_sub(self.sent + self.send_reliable + self.outgoing)
    }
}

/// Takes numbers off a row from the front.
struct Row<'a>(&'a [u32]);

impl Row<'_> {
    fn next(&mut self) -> Fallible<u32> {
        let (first, rest) = self.0.split_first().ok_or("op 15's row is too short")?;
        self.0 = rest;
        Ok(*first)
    }

    fn skip(&mut self, count: usize) -> Fallible<()> {
        self.0 = self.0.get(count..).ok_or("op 15's row is too short")?;
        Ok(())
    }

    /// A list is its length and its slots; the host needs the length.
    fn list(&mut self) -> Fallible<usize> {
        let length = self.next()? as usize;
        self.skip(length)?;
        Ok(length)
    }
}

pub fn look(row: &[u32]) -> Fallible<Look> {
    let peer = row.get(..43).ok_or("op 15's row is too short")?;
    let mut rest = Row(&row[43..]);
    let (sent, send_reliable, outgoing, mut incoming) =
        (rest.list()?, rest.list()?, rest.list()?, rest.list()?);
    rest.skip(2)?;
    let (incoming_group, outgoing_group) = (rest.next()?, rest.next()?);
    rest.skip(32 + 2)?;
    let host_count = rest.next()?;
    let (mut given_numbers, mut last_numbers) = (Vec::new(), Vec::new());
    for _ in 0..peer[6].min(8) {
        given_numbers.push(rest.next()?);
        rest.skip(1)?;
        last_numbers.push(rest.next()?);
        rest.skip(1)?;
        incoming += rest.list()?;
    }
    let marks = match rest.0 {
        [.., first, second] => [*first, *second],
        _ => return Err("op 15's row does not end with the marks".to_string()),
    };
    Ok(Look {
        channel_count: peer[6],
        next_timeout: peer[15],
        packet_throttle: peer[22],
        throttle_acceleration: peer[26],
        throttle_deceleration: peer[27],
        throttle_interval: peer[28],
        ping_interval: peer[29],
        round_trip: peer[37],
        mtu: peer[39],
        in_transit: peer[41],
        sent,
        send_reliable,
        outgoing,
        incoming,
        host_count,
        incoming_group,
        outgoing_group,
        given_numbers,
        last_numbers,
        marks,
    })
}

#[cfg(test)]
mod tests {
    use super::*;

    #[test]
    fn lists_channels_and_the_host_count_are_found() {
        let mut row: Vec<u32> = (0..43).collect();
        row[6] = 2;
        row.extend([2, 30, 31, 0, 1, 29, 1, 11]);
        row.extend([1, 0, 64_512, 65_300]);
        row.extend([0; 32 + 2]);
        row.push(77);
        row.extend([1, 2, 3, 4, 1, 10, 5, 6, 7, 8, 0]);
        row.extend([6, 0, 9, 0, 0, 48, 8, 0, 10, 3, 1, 70]);
        row.extend([5, 0]);
        let look = look(&row).unwrap();
        assert_eq!(
            (look.sent, look.send_reliable, look.outgoing, look.free_outgoing()),
            (2, 0, 1, 29)
        );
        assert_eq!((look.incoming_group, look.outgoing_group), (64_512, 65_300));
        assert_eq!((look.given_numbers, look.last_numbers), (vec![1, 5], vec![3, 7]));
        assert_eq!((look.host_count, look.mtu), (77, 39));
        assert_eq!((look.incoming, look.marks), (2, [5, 0]));
    }

    #[test]
    fn a_short_row_is_an_error() {
        assert!(look(&[0; 42]).is_err());
        assert!(look(&[0; 60]).is_err());
    }
}
