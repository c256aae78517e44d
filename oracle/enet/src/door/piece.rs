//! The door to `enet_protocol_handle_send_fragment` on a record; and a piece by hand, where the port's rule takes one that
//! the source does not.

use super::{
    arrival::{bytes, verdict, Room},
    command::write,
    nodes::Nodes,
    window::Verdict,
};
use crate::{
    opened,
    record::{Record, BITS},
    Bench, ENetIncomingCommand, ENET_PROTOCOL_COMMAND_SEND_FRAGMENT,
};

/// The command of a piece.
const KIND: u8 = ENET_PROTOCOL_COMMAND_SEND_FRAGMENT as u8;

/// A piece of a block that came in.
#[derive(Clone, Copy, Debug)]
pub struct Piece<'a> {
    pub byte: u8,
    pub channel: u8,
    /// The command's own number, which nothing reads.
    pub number: u16,
    pub start: u16,
    pub length: u16,
    pub count: u32,
    pub piece: u32,
    pub total: u32,
    pub offset: u32,
    /// The datagram from the payload's place on, be it longer or shorter than the length says.
    pub rest: &'a [u8],
}

/// What the source did with a piece, and, where it stored it, the bytes of the block after it.
#[derive(Clone, Debug, PartialEq, Eq)]
pub struct Pieced {
    pub verdict: Verdict,
    pub block: Vec<u8>,
}

impl Bench {
    /// The piece on a sound record, by the source's own handler, and the record after it; delivered means stored. The
    /// record's block has the first of these bytes; that of a living peer has its own. Where the source begins a block, a
    /// slot must be free and no other block there.
    pub fn piece(
        &mut self,
        record: &Record,
        store: &[u8],
        room: Room,
        piece: &Piece,
    ) -> (Pieced, Record) {
        let loaded = !self.lives();
        let take = |bench: &mut Bench, nodes: &mut Nodes| unsafe {
            if loaded {
                lay(nodes, store);
            }
            bench.hand_piece(nodes, room, piece)
        };
        unsafe { self.call(record, take) }
    }

    /// What the source does with the piece, where no record may be able to show it.
    pub fn judge_piece(&mut self, record: &Record, room: Room, piece: &Piece) -> Verdict {
        unsafe {
            let nodes = self.load(record);
            let pieced = self.hand_piece(&nodes, room, piece);
            *self = Bench::new();
            pieced.verdict
        }
    }

    /// By hand: these bytes of this piece in the block of this slot, which has it not yet.
    pub fn put_piece(
        &mut self,
        record: &Record,
        slot: usize,
        piece: u32,
        offset: u32,
        bytes: &[u8],
    ) -> Record {
        let put = |nodes: &mut Nodes| unsafe {
            let node: *mut ENetIncomingCommand = nodes.incoming[slot].cast();
            let end = offset as usize + bytes.len();
            assert!(end <= (*(*node).packet).data_length && piece < (*node).fragment_count);
            if !bytes.is_empty() {
                let data = (*(*node).packet).data.add(offset as usize);
                data.copy_from_nonoverlapping(bytes.as_ptr(), bytes.len());
            }
            *(*node).fragments.add((piece / BITS) as usize) |= 1 << (piece % BITS);
            (*node).fragments_remaining -= 1;
        };
        unsafe { self.call(record, |_, nodes| put(nodes)).1 }
    }

    /// The loaded peer's piece.
    unsafe fn hand_piece(&mut self, nodes: &Nodes, room: Room, piece: &Piece) -> Pieced {
        let before = block(nodes).map(|node| (node, (*node).fragments_remaining));
        let handler = opened::handle_send_fragment;
        let returned = self.handled(handler, &command(piece), piece.rest, piece.length, room);
        let new = self.new_node(nodes).map(|node| node.cast());
        if let Some(node) = new {
            clear(node, piece);
        }
        let grown = before.filter(|(node, left)| (**node).fragments_remaining != *left);
        let stored = new.or(grown.map(|(node, _)| node));
        let block = stored.map_or_else(Vec::new, |node| bytes(node));
        Pieced { verdict: verdict(returned, stored.is_some()), block }
    }
}

/// The command as it lies in a datagram, but for its number: the source's loop has swapped that before.
pub(super) fn command(piece: &Piece) -> Vec<u8> {
    let &Piece { byte, channel, number, start, length, count, piece: own, total, .. } = piece;
    let fields = [start.into(), length.into(), count, own, total, piece.offset];
    write(byte, channel, number.to_be(), KIND, &fields)
}

/// The node of a sound record's block.
unsafe fn block(nodes: &Nodes) -> Option<*mut ENetIncomingCommand> {
    let used = nodes.incoming.iter().filter(|node| !node.is_null());
    used.map(|node| node.cast()).find(|node: &*mut ENetIncomingCommand| (**node).fragment_count > 0)
}

/// Lays the first bytes of the store into the record's block.
unsafe fn lay(nodes: &Nodes, store: &[u8]) {
    if let Some(node) = block(nodes) {
        let packet = (*node).packet;
        (*packet).data.copy_from_nonoverlapping(store.as_ptr(), (*packet).data_length);
    }
}

/// Sets to 0 what the first piece did not write: the source leaves there what the allocator gave it.
unsafe fn clear(node: *mut ENetIncomingCommand, piece: &Piece) {
    let packet = (*node).packet;
    let (from, to) = (piece.offset as usize, piece.offset as usize + usize::from(piece.length));
    (*packet).data.write_bytes(0, from);
    (*packet).data.add(to).write_bytes(0, (*packet).data_length - to);
}
