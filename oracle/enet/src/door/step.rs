//! The send step, which the port adds, by hand on the source's own nodes.

use std::{mem::zeroed, ptr::addr_of_mut};

use super::dump::outgoing;
use crate::{
    bench::is_empty,
    consts::PEER_RELIABLE_WINDOW_SIZE,
    enet_list_clear, enet_list_insert, enet_list_remove, opened,
    record::{Outgoing, Queue, Record},
    Bench, ENetList, ENetOutgoingCommand, ENET_PEER_STATE_CONNECTED,
    ENET_PROTOCOL_COMMAND_FLAG_ACKNOWLEDGE,
};

impl Bench {
    /// The head of a sound record's list as it goes out, if there is one, and the record after it.
    pub fn step(&mut self, record: &Record, queue: Queue, time: u32) -> (Option<Outgoing>, Record) {
        unsafe { self.call(record, |bench, _| bench.send_head(queue, time)) }
    }

    unsafe fn send_head(&mut self, queue: Queue, time: u32) -> Option<Outgoing> {
        let peer = self.peer;
        let list = match queue {
            Queue::Outgoing => addr_of_mut!((*peer).outgoing_commands),
            Queue::SendReliable => addr_of_mut!((*peer).outgoing_send_reliable_commands),
        };
        if is_empty(list) {
            return None;
        }
        let head: *mut ENetOutgoingCommand = (*list).sentinel.next.cast();
        let asks =
            u32::from((*head).command.header.command) & ENET_PROTOCOL_COMMAND_FLAG_ACKNOWLEDGE != 0;
        if asks && (*head).send_attempts == 0 {
            self.use_window(head);
        }
        (*head).send_attempts = (*head).send_attempts.saturating_add(1);
        (*head).sent_time = time;
        if (*head).round_trip_timeout == 0 {
            let four = (*peer).round_trip_time_variance.wrapping_mul(4);
            (*head).round_trip_timeout = (*peer).round_trip_time.wrapping_add(four);
        }
        (*peer).packets_sent = (*peer).packets_sent.wrapping_add(1);
        let out = outgoing(head);
        enet_list_remove(head.cast());
        if asks {
            self.join_sent(head);
        } else {
            self.let_go(head);
        }
        Some(out)
    }

    /// The channel's reliable windows, as the source's packing counts them: no record holds them.
    unsafe fn use_window(&mut self, head: *mut ENetOutgoingCommand) {
        let place = usize::from((*head).command.header.channel_id);
        if place < (*self.peer).channel_count {
            let channel = (*self.peer).channels.add(place);
            let window = (*head).reliable_sequence_number / PEER_RELIABLE_WINDOW_SIZE as u16;
            (*channel).used_reliable_windows |= 1 << window;
            let count = addr_of_mut!((*channel).reliable_windows[usize::from(window)]);
            *count = (*count).wrapping_add(1);
        }
    }

    unsafe fn join_sent(&mut self, head: *mut ENetOutgoingCommand) {
        let peer = self.peer;
        let sent = addr_of_mut!((*peer).sent_reliable_commands);
        if is_empty(sent) {
            (*peer).next_timeout = (*head).sent_time.wrapping_add((*head).round_trip_timeout);
        }
        enet_list_insert(addr_of_mut!((*sent).sentinel), head.cast());
        if !(*head).packet.is_null() {
            let more = u32::from((*head).fragment_length);
            (*peer).reliable_data_in_transit = (*peer).reliable_data_in_transit.wrapping_add(more);
        }
    }

    /// Frees a command that asks for no acknowledgement, as the source does once it was sent.
    unsafe fn let_go(&mut self, head: *mut ENetOutgoingCommand) {
        let mut list: ENetList = zeroed();
        enet_list_clear(&mut list);
        enet_list_insert(addr_of_mut!(list.sentinel), head.cast());
        // In state 6 the source would then disconnect; it asks for the state nowhere else.
        let state = (*self.peer).state;
        (*self.peer).state = ENET_PEER_STATE_CONNECTED;
        opened::remove_sent_unreliable_commands(self.peer, &mut list);
        (*self.peer).state = state;
    }
}

#[cfg(test)]
mod tests {
    use super::*;
    use crate::{Acknowledgement, Limits, Packet};

    /// The windows that channel 0 uses, and the count of the first.
    fn windows(bench: &Bench) -> (u16, u16) {
        let channel = unsafe { *(*bench.peer).channels };
        (channel.used_reliable_windows, channel.reliable_windows[0])
    }

    #[test]
    fn a_living_peer_keeps_its_windows_from_call_to_call() {
        let (record, mut bench) = (Record::zero(), Bench::living(1_392));
        bench.begin(&record, 576, 1);
        bench.set_state(&record, 5);
        for length in [1, 2] {
            let packet = Packet { channel: 0, length, flags: 1 };
            bench.send(&record, Limits { packet: 9, checksum: false }, packet);
        }
        let mut seen = vec![windows(&bench)];
        for _ in 0..2 {
            bench.step(&record, Queue::SendReliable, 1_000);
            seen.push(windows(&bench));
        }
        bench.check_timeouts(&record, 1_500);
        for number in [1, 2] {
            // Sent again, which is not counted.
            bench.step(&record, Queue::SendReliable, 1_600);
            let came = Acknowledgement { channel: 0, number, sent_time: 1_000, clock: 1_700 };
            bench.acknowledge(&record, came);
            seen.push(windows(&bench));
        }
        assert_eq!(seen, [(0, 0), (1, 1), (1, 2), (1, 1), (0, 0)]);
    }
}
