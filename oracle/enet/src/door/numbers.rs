//! The single numbers of a record in the source's structs: one list serves for loading and dumping.

use std::ptr::addr_of_mut;

use crate::{silent::Silent, ENetHost, ENetPeer};

/// A number by its place in the struct, and so by its width.
pub(crate) enum Number {
    Byte(*mut u8),
    Short(*mut u16),
    Long(*mut u32),
    Size(*mut usize),
}

impl Number {
    pub(crate) unsafe fn get(&self) -> u32 {
        match *self {
            Number::Byte(place) => (*place).into(),
            Number::Short(place) => (*place).into(),
            Number::Long(place) => *place,
            Number::Size(place) => (*place).try_into().expect("no larger number was ever set"),
        }
    }

    /// Writes a number that fits.
    pub(crate) unsafe fn set(&self, number: u32) {
        match *self {
            Number::Byte(place) => *place = number.try_into().expect("fits a byte"),
            Number::Short(place) => *place = number.try_into().expect("fits 16 bits"),
            Number::Long(place) => *place = number,
            Number::Size(place) => *place = number as usize,
        }
    }
}

impl From<*mut u8> for Number {
    fn from(place: *mut u8) -> Self {
        Number::Byte(place)
    }
}

impl From<*mut u16> for Number {
    fn from(place: *mut u16) -> Self {
        Number::Short(place)
    }
}

impl From<*mut u32> for Number {
    fn from(place: *mut u32) -> Self {
        Number::Long(place)
    }
}

impl From<*mut usize> for Number {
    fn from(place: *mut usize) -> Self {
        Number::Size(place)
    }
}

macro_rules! list {
    ($($owner:ident: $($field:ident),+;)+) => {
        vec![$($(Number::from(addr_of_mut!((*$owner).$field))),+),+]
    };
}

/// The numbers in the order of `record::place`; the host's count comes last.
pub(crate) unsafe fn numbers(
    host: *mut ENetHost<Silent>,
    peer: *mut ENetPeer<Silent>,
) -> Vec<Number> {
    list!(
        peer: outgoing_peer_id, incoming_peer_id, connect_id, outgoing_session_id,
            incoming_session_id, state, channel_count, incoming_bandwidth, outgoing_bandwidth,
            incoming_bandwidth_throttle_epoch, outgoing_bandwidth_throttle_epoch,
            incoming_data_total, outgoing_data_total, last_send_time, last_receive_time,
            next_timeout, earliest_timeout, packet_loss_epoch, packets_sent, packets_lost,
            packet_loss, packet_loss_variance, packet_throttle, packet_throttle_limit,
            packet_throttle_counter, packet_throttle_epoch, packet_throttle_acceleration,
            packet_throttle_deceleration, packet_throttle_interval, ping_interval, timeout_limit,
            timeout_minimum, timeout_maximum, last_round_trip_time, lowest_round_trip_time,
            last_round_trip_time_variance, highest_round_trip_time_variance, round_trip_time,
            round_trip_time_variance, mtu, window_size, reliable_data_in_transit,
            outgoing_reliable_sequence_number, flags, reserved, incoming_unsequenced_group,
            outgoing_unsequenced_group, event_data, total_waiting_data;
        host: total_queued;
    )
}
