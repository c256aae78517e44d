//! The door to `enet_protocol_handle_acknowledge`, and so to `enet_protocol_remove_sent_reliable_command`.

use std::{mem::zeroed, ptr::null_mut};

use super::{load::command, nodes::Nodes, notice::Before};
use crate::{
    enet_peer_has_outgoing_commands, opened,
    record::{place, Outgoing, Record},
    Bench, ENetProtocol, ENET_EVENT_TYPE_CONNECT, ENET_EVENT_TYPE_DISCONNECT, ENET_EVENT_TYPE_NONE,
    ENET_PEER_STATE_CONNECTED, ENET_PEER_STATE_CONNECTION_PENDING,
    ENET_PEER_STATE_DISCONNECT_LATER, ENET_PEER_STATE_ZOMBIE, ENET_PROTOCOL_COMMAND_ACKNOWLEDGE,
};

/// The command that acknowledges.
const KIND: u8 = ENET_PROTOCOL_COMMAND_ACKNOWLEDGE as u8;

/// Stands for the earliest timeout: the handler never reads it, and sets it to 0 unless it passes over.
const MARK: u32 = 1;

/// An acknowledgement that came in when the host's clock stood here.
#[derive(Clone, Copy, Debug)]
pub struct Acknowledgement {
    pub channel: u8,
    pub number: u16,
    pub sent_time: u16,
    pub clock: u32,
}

/// What the source did with an acknowledgement.
#[derive(Clone, Copy, Debug, PartialEq, Eq, PartialOrd, Ord)]
pub enum Acknowledged {
    PassedOver,
    Done,
    /// The source's notice that the peer is connected, or disconnected.
    Connect,
    Disconnect,
    /// The source's own disconnect, once nothing waits.
    DisconnectNow,
    /// Returned -1.
    Refused,
}

impl Bench {
    /// What the source's handler did with the acknowledgement on a sound record, and the record after it; where it
    /// notifies or disconnects, the record just before that.
    pub fn acknowledge(
        &mut self,
        record: &Record,
        came: Acknowledgement,
    ) -> (Acknowledged, Record) {
        unsafe { self.call(record, |bench, _| bench.hand_in_quietly(came)) }
    }

    /// The peer's acknowledgement; a notice is undone, and a disconnect does not come.
    unsafe fn hand_in_quietly(&mut self, came: Acknowledgement) -> Acknowledged {
        let (host, peer, before) = (self.host, self.peer, Before::of(self));
        // The disconnect of state 6 would free every node. The handler asks for the state at its start, where 5 goes on
        // like 6, and then at its end alone, where 5 does nothing.
        let later = before.state == ENET_PEER_STATE_DISCONNECT_LATER;
        let state = if later { ENET_PEER_STATE_CONNECTED } else { before.state };
        let earliest = (*peer).earliest_timeout;
        (*peer).earliest_timeout = MARK;
        (*peer).state = state;
        (*host).service_time = came.clock;
        let returned = opened::handle_acknowledge(host, null_mut(), peer, &acknowledging(came));
        let passed_over = (*peer).earliest_timeout == MARK;
        let came_to = (*peer).state;
        if came_to == state {
            (*peer).state = before.state;
        } else {
            before.put_back(self);
        }
        if passed_over {
            (*peer).earliest_timeout = earliest;
            return Acknowledged::PassedOver;
        }
        match (returned, came_to) {
            (-1, _) => Acknowledged::Refused,
            // The same test as the handler's in state 6.
            (0, _) if later && enet_peer_has_outgoing_commands(peer) == 0 => {
                Acknowledged::DisconnectNow
            }
            (0, _) if came_to == state => Acknowledged::Done,
            (0, ENET_PEER_STATE_CONNECTION_PENDING) => Acknowledged::Connect,
            (0, ENET_PEER_STATE_ZOMBIE) => Acknowledged::Disconnect,
            other => unreachable!("the source answered {other:?}"),
        }
    }

    /// The same with all that the source does when it notifies or disconnects.
    pub fn acknowledge_whole(
        &mut self,
        record: &Record,
        came: Acknowledgement,
    ) -> (Acknowledged, Record) {
        let handle = |bench: &mut Bench, nodes: &mut Nodes| unsafe {
            (*bench.peer).earliest_timeout = MARK;
            let answer = bench.hand_in(came);
            if answer == Acknowledged::DisconnectNow {
                // It freed every node, and its own command may lie at the place of one.
                *nodes = Nodes::none();
            }
            answer
        };
        let (answer, mut after) = unsafe { self.call(record, handle) };
        if answer == Acknowledged::PassedOver {
            after.numbers[place::EARLIEST_TIMEOUT] = record.numbers[place::EARLIEST_TIMEOUT];
        }
        (answer, after)
    }

    /// The loaded peer's acknowledgement; its earliest timeout must be marked.
    unsafe fn hand_in(&mut self, came: Acknowledgement) -> Acknowledged {
        let (host, peer) = (self.host, self.peer);
        let (state, mut event) = ((*peer).state, zeroed());
        (*host).service_time = came.clock;
        let returned = opened::handle_acknowledge(host, &mut event, peer, &acknowledging(came));
        match (returned, event.type_0) {
            (-1, ENET_EVENT_TYPE_NONE) => Acknowledged::Refused,
            (0, ENET_EVENT_TYPE_CONNECT) => Acknowledged::Connect,
            (0, ENET_EVENT_TYPE_DISCONNECT) => Acknowledged::Disconnect,
            (0, ENET_EVENT_TYPE_NONE) if (*peer).state != state => Acknowledged::DisconnectNow,
            (0, ENET_EVENT_TYPE_NONE) if (*peer).earliest_timeout == MARK => {
                Acknowledged::PassedOver
            }
            (0, ENET_EVENT_TYPE_NONE) => Acknowledged::Done,
            other => unreachable!("the source answered {other:?}"),
        }
    }
}

/// The command as the handler gets it; the number of its own header is never read.
pub(crate) unsafe fn acknowledging(came: Acknowledgement) -> ENetProtocol {
    let fields = vec![came.number.into(), came.sent_time.into()];
    let channel = came.channel;
    command(&Outgoing { byte: KIND, kind: KIND, channel, fields, ..Outgoing::default() })
}

#[cfg(test)]
mod tests {
    use super::*;
    use crate::record::CHANNELS;

    /// A connected record with number 1 of every channel sent.
    fn sent() -> Record {
        let mut record = Record::fresh(1_392);
        record.numbers[place::STATE] = ENET_PEER_STATE_CONNECTED;
        record.numbers[place::CHANNEL_COUNT] = CHANNELS as u32;
        for slot in 0..CHANNELS {
            record.outgoing_slots[slot] = Outgoing {
                reliable: 1,
                attempts: 1,
                byte: 133,
                kind: 5,
                channel: slot as u8,
                ..Outgoing::default()
            };
            record.sent.push(slot);
        }
        record
    }

    #[test]
    fn windows_in_use_do_not_show_in_the_record() {
        let came = Acknowledgement { channel: 3, number: 1, sent_time: 5, clock: 9 };
        let with = |windows: u16| unsafe {
            let handle = |bench: &mut Bench, _: &mut Nodes| {
                let channel = (*bench.peer).channels.add(3);
                (*channel).reliable_windows[0] = windows;
                (*channel).used_reliable_windows = 1;
                (*bench.peer).earliest_timeout = MARK;
                let answer = bench.hand_in(came);
                (answer, (*channel).reliable_windows[0], (*channel).used_reliable_windows)
            };
            Bench::new().call(&sent(), handle)
        };
        let (plain, after) = Bench::new().acknowledge(&sent(), came);
        assert_eq!(plain, Acknowledged::Done);
        assert_eq!(with(2), ((plain, 1, 1), after.clone()));
        assert_eq!(with(1), ((plain, 0, 0), after.clone()));
        assert_eq!(with(0), ((plain, 0, 1), after));
    }
}
