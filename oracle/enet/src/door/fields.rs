//! The fields of the source's packed structs: one list serves for reading, writing and limits.

use std::ptr::addr_of_mut;

use crate::{
    ENetProtocol, ENET_PROTOCOL_COMMAND_ACKNOWLEDGE, ENET_PROTOCOL_COMMAND_BANDWIDTH_LIMIT,
    ENET_PROTOCOL_COMMAND_CONNECT, ENET_PROTOCOL_COMMAND_DISCONNECT,
    ENET_PROTOCOL_COMMAND_SEND_FRAGMENT, ENET_PROTOCOL_COMMAND_SEND_RELIABLE,
    ENET_PROTOCOL_COMMAND_SEND_UNRELIABLE, ENET_PROTOCOL_COMMAND_SEND_UNRELIABLE_FRAGMENT,
    ENET_PROTOCOL_COMMAND_SEND_UNSEQUENCED, ENET_PROTOCOL_COMMAND_THROTTLE_CONFIGURE,
    ENET_PROTOCOL_COMMAND_VERIFY_CONNECT,
};

/// A field of a command, by its place in the packed struct and so by its width; never aligned.
pub(crate) enum Field {
    Byte(*mut u8),
    Short(*mut u16),
    Long(*mut u32),
}

impl Field {
    pub(crate) unsafe fn get(&self) -> u32 {
        match *self {
            Field::Byte(place) => place.read().into(),
            Field::Short(place) => u16::from_be(place.read_unaligned()).into(),
            Field::Long(place) => u32::from_be(place.read_unaligned()),
        }
    }

    /// Writes a number that is not above the field's limit.
    pub(crate) unsafe fn set(&self, number: u32) {
        assert!(number <= self.limit(), "{number} does not fit its field");
        match *self {
            Field::Byte(place) => place.write(number as u8),
            Field::Short(place) => place.write_unaligned((number as u16).to_be()),
            Field::Long(place) => place.write_unaligned(number.to_be()),
        }
    }

    pub(crate) fn limit(&self) -> u32 {
        match self {
            Field::Byte(_) => u8::MAX.into(),
            Field::Short(_) => u16::MAX.into(),
            Field::Long(_) => u32::MAX,
        }
    }
}

impl From<*mut u8> for Field {
    fn from(place: *mut u8) -> Self {
        Field::Byte(place)
    }
}

impl From<*mut u16> for Field {
    fn from(place: *mut u16) -> Self {
        Field::Short(place)
    }
}

impl From<*mut u32> for Field {
    fn from(place: *mut u32) -> Self {
        Field::Long(place)
    }
}

macro_rules! list {
    ($command:ident . $part:ident: $($field:ident),+) => {
        vec![$(Field::from(addr_of_mut!((*$command).$part.$field))),+]
    };
}

/// The fields after the header, in the order of the kind's struct; a ping has none.
pub(crate) unsafe fn fields(command: *mut ENetProtocol, kind: u8) -> Vec<Field> {
    match u32::from(kind) {
        ENET_PROTOCOL_COMMAND_ACKNOWLEDGE => list!(command.acknowledge:
            received_reliable_sequence_number, received_sent_time),
        ENET_PROTOCOL_COMMAND_CONNECT => list!(command.connect:
            outgoing_peer_id, incoming_session_id, outgoing_session_id, mtu, window_size,
            channel_count, incoming_bandwidth, outgoing_bandwidth, packet_throttle_interval,
            packet_throttle_acceleration, packet_throttle_deceleration, connect_id, data),
        ENET_PROTOCOL_COMMAND_VERIFY_CONNECT => list!(command.verify_connect:
            outgoing_peer_id, incoming_session_id, outgoing_session_id, mtu, window_size,
            channel_count, incoming_bandwidth, outgoing_bandwidth, packet_throttle_interval,
            packet_throttle_acceleration, packet_throttle_deceleration, connect_id),
        ENET_PROTOCOL_COMMAND_DISCONNECT => list!(command.disconnect: data),
        ENET_PROTOCOL_COMMAND_SEND_RELIABLE => list!(command.send_reliable: data_length),
        ENET_PROTOCOL_COMMAND_SEND_UNRELIABLE => list!(command.send_unreliable:
            unreliable_sequence_number, data_length),
        ENET_PROTOCOL_COMMAND_SEND_FRAGMENT | ENET_PROTOCOL_COMMAND_SEND_UNRELIABLE_FRAGMENT => {
            list!(command.send_fragment:
                start_sequence_number, data_length, fragment_count, fragment_number, total_length,
                fragment_offset)
        }
        ENET_PROTOCOL_COMMAND_SEND_UNSEQUENCED => list!(command.send_unsequenced:
            unsequenced_group, data_length),
        ENET_PROTOCOL_COMMAND_BANDWIDTH_LIMIT => list!(command.bandwidth_limit:
            incoming_bandwidth, outgoing_bandwidth),
        ENET_PROTOCOL_COMMAND_THROTTLE_CONFIGURE => list!(command.throttle_configure:
            packet_throttle_interval, packet_throttle_acceleration, packet_throttle_deceleration),
        _ => Vec::new(),
    }
}
