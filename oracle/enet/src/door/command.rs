//! The door to the commands: read by the source's own loop and packed structs, written by the latter.

use std::{
    mem::{size_of, zeroed},
    ptr::{addr_of_mut, null_mut},
};

use super::fields::fields;
use crate::{
    bench::ROOM, enet_protocol_command_size, opened, Bench, ENetProtocol,
    ENetProtocolCommandHeader, ENET_PROTOCOL_COMMAND_MASK,
};

/// Two unequal bytes in place of the command's number: the loop swaps them when it accepts a command.
const MARK: [u8; 2] = [1, 2];
const SWAPPED: [u8; 2] = [2, 1];

/// The place of the number in a command.
const NUMBER: usize = 2;

/// A command as it was read, and the place after it.
#[derive(Clone, Debug, PartialEq, Eq)]
pub struct Read {
    pub next: usize,
    pub byte: u8,
    pub channel: u8,
    pub number: u16,
    pub fields: Vec<u32>,
}

/// The source's size of a command of this kind, 1 to 12.
pub fn size(kind: u8) -> usize {
    assert!((1..=12).contains(&kind), "there is no command {kind}");
    unsafe { enet_protocol_command_size(kind) }
}

/// The largest number that each field of this kind holds.
pub fn limits(kind: u8) -> Vec<u32> {
    unsafe {
        let mut command: ENetProtocol = zeroed();
        fields(&mut command, kind).iter().map(|field| field.limit()).collect()
    }
}

/// The bytes of the source's packed struct of this kind; fields that are not given stay 0.
pub fn write(byte: u8, channel: u8, number: u16, kind: u8, values: &[u32]) -> Vec<u8> {
    unsafe {
        let mut command: ENetProtocol = zeroed();
        command.header = ENetProtocolCommandHeader {
            command: byte,
            channel_id: channel,
            reliable_sequence_number: number.to_be(),
        };
        for (field, value) in fields(&mut command, kind).iter().zip(values) {
            field.set(*value);
        }
        std::slice::from_raw_parts(addr_of_mut!(command).cast(), size(kind)).to_vec()
    }
}

impl Bench {
    /// The command at this place of the bytes, if the source's loop accepts one there.
    pub fn read(&mut self, bytes: &[u8], place: usize) -> Option<Read> {
        let rest = bytes.get(place..).unwrap_or(&[]);
        if !self.accepts(&rest[..rest.len().min(ROOM)]) {
            return None;
        }
        unsafe {
            let mut command: ENetProtocol = zeroed();
            let length = rest.len().min(size_of::<ENetProtocol>());
            addr_of_mut!(command).cast::<u8>().copy_from_nonoverlapping(rest.as_ptr(), length);
            let header = command.header;
            let kind = header.command & ENET_PROTOCOL_COMMAND_MASK as u8;
            Some(Read {
                next: place + size(kind),
                byte: header.command,
                channel: header.channel_id,
                number: u16::from_be(header.reliable_sequence_number),
                fields: fields(&mut command, kind).iter().map(|field| field.get()).collect(),
            })
        }
    }

    /// Whether the loop of `enet_protocol_handle_incoming_commands` accepts the first command: it swaps
    /// the number after all its tests of size and before any handler.
    fn accepts(&mut self, commands: &[u8]) -> bool {
        let number = unsafe { self.receive(commands).add(NUMBER).cast::<[u8; 2]>() };
        unsafe {
            // Past the end of a short datagram the mark lies in the host's buffer and must stay.
            number.write(MARK);
            // The handlers that follow the swap then store nothing.
            (*self.host).maximum_waiting_data = 0;
            opened::handle_incoming_commands(self.host, null_mut());
        }
        self.renew();
        match unsafe { number.read() } {
            MARK => false,
            SWAPPED => true,
            other => unreachable!("the source left {other:?}"),
        }
    }
}
