//! The datagram's header (peer id, session bits, sent time), and commands with their payloads packed behind it.

pub const NO_PEER_ID: u16 = 4095;
const SESSION_SHIFT: u16 = 12;
const COMPRESSED: u16 = 1 << 14;
const SENT_TIME: u16 = 1 << 15;
const HEADER_SIZE: usize = 4;
const MAXIMUM_COMMANDS: usize = 32;

/// Who a datagram goes to, as the handshake settled it: before that, peer id 4,095 and no session.
#[derive(Clone, Copy)]
pub struct Ids {
    pub outgoing_peer_id: u16,
    pub outgoing_session_id: u8,
    pub incoming_session_id: u8,
}

/// A header that was read.
#[derive(Debug, PartialEq)]
pub struct Header {
    pub peer_id: u16,
    pub session_id: u8,
    pub sent_time: Option<u16>,
    pub size: usize,
}

/// Nothing where bytes are short or the rest is compressed, which no one agreed on.
pub fn read_header(datagram: &[u8]) -> Option<Header> {
    let first = u16::from_be_bytes([*datagram.first()?, *datagram.get(1)?]);
    if first & COMPRESSED != 0 {
        return None;
    }
    let sent_time = match first & SENT_TIME {
        0 => None,
        _ => Some(u16::from_be_bytes([*datagram.get(2)?, *datagram.get(3)?])),
    };
    let size = if sent_time.is_some() { HEADER_SIZE } else { 2 };
    Some(Header {
        peer_id: first & NO_PEER_ID,
        session_id: (first >> SESSION_SHIFT & 3) as u8,
        sent_time,
        size,
    })
}

/// A sent time is told only where a command asks for an acknowledgement, as the source does.
fn write_header(ids: Ids, sent_time: Option<u16>) -> Vec<u8> {
    let session = if ids.outgoing_peer_id < NO_PEER_ID {
        u16::from(ids.outgoing_session_id) << SESSION_SHIFT
    } else {
        0
    };
    let flag = if sent_time.is_some() { SENT_TIME } else { 0 };
    let mut header = (ids.outgoing_peer_id | session | flag).to_be_bytes().to_vec();
    if let Some(time) = sent_time {
        header.extend(time.to_be_bytes());
    }
    header
}

/// Datagrams of one moment. A command that a send step gave must go out: where it does not fit, the next datagram begins.
pub struct Packing {
    ids: Ids,
    time: u16,
    mtu: usize,
    body: Vec<u8>,
    commands: usize,
    asks: bool,
    done: Vec<Vec<u8>>,
}

impl Packing {
    pub fn new(ids: Ids, clock: u32, mtu: u32) -> Packing {
        let (time, mtu) = (clock as u16, mtu as usize);
        Packing { ids, time, mtu, body: Vec::new(), commands: 0, asks: false, done: Vec::new() }
    }

    /// The number of the datagram that took the command, from 0.
    pub fn add(&mut self, command: &[u8], payload: &[u8], asks: bool) -> usize {
        if self.commands == MAXIMUM_COMMANDS
            || HEADER_SIZE + self.body.len() + command.len() + payload.len() > self.mtu
        {
            self.close();
        }
        self.body.extend(command);
        self.body.extend(payload);
        self.commands += 1;
        self.asks |= asks;
        self.done.len()
    }

    fn close(&mut self) {
        if self.commands > 0 {
            let mut datagram = write_header(self.ids, self.asks.then_some(self.time));
            datagram.append(&mut self.body);
            self.done.push(datagram);
        }
        self.commands = 0;
        self.asks = false;
    }

    pub fn datagrams(mut self) -> Vec<Vec<u8>> {
        self.close();
        self.done
    }
}

#[cfg(test)]
mod tests {
    use super::*;

    const IDS: Ids = Ids { outgoing_peer_id: 5, outgoing_session_id: 2, incoming_session_id: 1 };

    #[test]
    fn a_header_is_read_as_written() {
        let header = read_header(&write_header(IDS, Some(700)));
        assert_eq!(
            header,
            Some(Header { peer_id: 5, session_id: 2, sent_time: Some(700), size: 4 })
        );
        let header = read_header(&write_header(IDS, None));
        assert_eq!(header, Some(Header { peer_id: 5, session_id: 2, sent_time: None, size: 2 }));
    }

    #[test]
    fn before_the_handshake_there_is_no_session() {
        let ids = Ids {
            outgoing_peer_id: NO_PEER_ID,
            outgoing_session_id: 255,
            incoming_session_id: 255,
        };
        assert_eq!(write_header(ids, Some(1)), [0x8f, 0xff, 0, 1]);
    }

    #[test]
    fn short_or_compressed_is_not_read() {
        assert_eq!(read_header(&[0]), None);
        assert_eq!(read_header(&[0x80, 0, 1]), None);
        assert_eq!(read_header(&[0x40, 0, 1]), None);
    }

    #[test]
    fn what_does_not_fit_begins_the_next_datagram() {
        let mut packing = Packing::new(IDS, 65_536 + 9, 20);
        assert_eq!(packing.add(&[1; 8], &[2; 8], true), 0);
        assert_eq!(packing.add(&[3; 8], &[], false), 1);
        let datagrams = packing.datagrams();
        assert_eq!(datagrams[0][..5], [0xa0, 5, 0, 9, 1]);
        assert_eq!(datagrams[1][..3], [0x20, 5, 3]);
    }

    #[test]
    fn a_datagram_has_at_most_32_commands() {
        let mut packing = Packing::new(IDS, 0, 4096);
        let places: Vec<usize> =
            (0..33).map(|_| packing.add(&[5, 255, 0, 0], &[], false)).collect();
        assert_eq!((places[31], places[32], packing.datagrams().len()), (0, 1, 2));
    }
}
