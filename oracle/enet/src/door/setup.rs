//! The door to `enet_peer_queue_outgoing_command` and so to `enet_peer_setup_outgoing_command`.

use std::ptr::{null, null_mut};

use super::load::command;
use crate::{
    enet_packet_create, enet_peer_queue_outgoing_command,
    record::{Outgoing, Record},
    Bench,
};

impl Bench {
    /// A sound record after this command was set up, which a slot must be free for: taken are its byte,
    /// channel, number and fields, its packet, offset and piece length.
    pub fn setup(&mut self, record: &Record, piece: &Outgoing) -> Record {
        let queue = |bench: &mut Bench| unsafe {
            let command = command(piece);
            let packet = if piece.packet { enet_packet_create(null(), 0, 0) } else { null_mut() };
            enet_peer_queue_outgoing_command(
                bench.peer,
                &command,
                packet,
                piece.offset,
                piece.length,
            );
        };
        unsafe { self.call(record, |bench, _| queue(bench)).1 }
    }
}
