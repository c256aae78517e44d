//! The 12 incoming slots and the one place for a block: what a host hands in when, so that the number that a channel waits for finds room.

use crate::door::{Answers, Door};
use crate::link::{Command, Received, Reply, FRAGMENT};
use crate::look::INCOMING_SLOTS;
use crate::{blocks, reports, Fallible};
use std::collections::{BTreeMap, VecDeque};

/// How many packets the host keeps beside the link, at most.
const KEPT_AT_MOST: usize = 4096;
const NO_ROOM: u32 = 8;

/// What a host does as slots run out.
#[derive(Clone, Copy, PartialEq)]
pub enum Room {
    /// Hands in whatever comes: the mistake that loses the link.
    TakeAll,
    /// Keeps the last free slot and the place for a block for a next number, and does not answer the others: they come again.
    KeepLast,
    /// Keeps them likewise, keeps the other packets and pieces itself, answers them, and hands them in when their turn comes.
    KeepPackets,
}

pub struct Incoming {
    room: Room,
    /// Slots in use: packets stored and blocks begun, less those received.
    pub held: usize,
    /// Channel and start of the block that was begun and not yet received.
    pub block: Option<(u32, u32)>,
    kept: BTreeMap<(u32, u32), (Command, Vec<u8>)>,
}

impl Incoming {
    pub fn new(room: Room) -> Incoming {
        Incoming { room, held: 0, block: None, kept: BTreeMap::new() }
    }

    fn is_of_the_block(&self, command: &Command) -> bool {
        command.kind() == FRAGMENT && self.block == Some((command.channel, command.first_number()))
    }

    /// While one block is there no other can begin.
    fn is_of_another_block(&self, command: &Command) -> bool {
        command.kind() == FRAGMENT && self.block.is_some() && !self.is_of_the_block(command)
    }

    /// A piece of the block that was begun needs no room. A packet has some while one slot is left for a next number, and one for a block that
    /// may begin. A later block that began would wait for one before it, which then could not begin.
    fn has_room(&self, command: &Command) -> bool {
        if command.kind() == FRAGMENT {
            self.is_of_the_block(command)
        } else {
            self.held + 1 + usize::from(self.block.is_none()) < INCOMING_SLOTS
        }
    }
}

/// The next number, or one that the link passes over.
fn is_its_turn(number: u32, last: u32) -> bool {
    let distance = number.wrapping_sub(last) & 0xffff;
    distance <= 1 || distance > 32_767
}

/// Blocks that came, and what is still to be sent up for them.
#[derive(Default)]
pub struct Blocks {
    pub came: u32,
    pub unsaid: VecDeque<Vec<u8>>,
}

/// What becomes of a command that arrived.
#[derive(PartialEq)]
pub enum Fate {
    Answered,
    NotAnswered,
}

impl Door {
    /// A reliable packet or a piece of one. Refused is never answered; stored and passed over are.
    pub fn reliable(&mut self, command: &Command, place: usize, datagram: &[u8]) -> Fallible<Fate> {
        if self.must_wait(command)? {
            return Ok(self.put_aside(command, place, datagram));
        }
        let reply = self.hand_in(command, place, datagram)?;
        Ok(self.fate(&reply))
    }

    /// Where there is no room to spare, only a next number may have the last: a packet is dispatched and received at once, and its slot is free
    /// again; a block needs its own pieces alone, and those need no slot. A host that keeps packets keeps the pieces of a second block too.
    fn must_wait(&mut self, command: &Command) -> Fallible<bool> {
        if self.incoming.room == Room::TakeAll || self.incoming.has_room(command) {
            return Ok(false);
        }
        if self.incoming.room == Room::KeepPackets && self.incoming.is_of_another_block(command) {
            return Ok(true);
        }
        let last = self.link.look()?.last_numbers.get(command.channel as usize).copied();
        Ok(last.is_some_and(|last| !is_its_turn(command.first_number(), last)))
    }

    fn put_aside(&mut self, command: &Command, place: usize, datagram: &[u8]) -> Fate {
        let payload = datagram.get(place..place + command.payload_length());
        let keeps =
            self.incoming.room == Room::KeepPackets && self.incoming.kept.len() < KEPT_AT_MOST;
        match payload {
            Some(payload) if keeps => {
                let key = (command.channel, command.number);
                if self.incoming.kept.insert(key, (command.clone(), payload.to_vec())).is_none() {
                    self.count(if command.kind() == FRAGMENT { "pieces-kept" } else { "kept" });
                }
                Fate::Answered
            }
            _ => {
                self.count("let-go");
                Fate::NotAnswered
            }
        }
    }

    fn hand_in(&mut self, command: &Command, place: usize, datagram: &[u8]) -> Fallible<Reply> {
        let reply = self.link.arrival(command, place, datagram)?;
        self.tally(command, &reply);
        self.receive()?;
        Ok(reply)
    }

    /// What was kept goes in when it is the next number; what is a repeat by now the link passes over. It was answered, so none may be refused.
    pub fn hand_in_kept(&mut self) -> Fallible<()> {
        while let Some((command, payload)) = self.next_kept()? {
            self.count("handed-in-later");
            self.hand_in(&command, 0, &payload)?.done("a packet that was kept and answered")?;
        }
        Ok(())
    }

    fn next_kept(&mut self) -> Fallible<Option<(Command, Vec<u8>)>> {
        if self.incoming.kept.is_empty() {
            return Ok(None);
        }
        let last = self.link.look()?.last_numbers;
        let incoming = &mut self.incoming;
        let turn = |command: &Command| {
            is_its_turn(command.first_number(), last[command.channel as usize])
                && !incoming.is_of_another_block(command)
        };
        let key = incoming.kept.iter().find(|(_, (command, _))| turn(command)).map(|(key, _)| *key);
        Ok(key.and_then(|key| incoming.kept.remove(&key)))
    }

    /// An unsequenced packet. It asks for no answer.
    pub fn unsequenced(
        &mut self,
        command: &Command,
        place: usize,
        datagram: &[u8],
    ) -> Fallible<Fate> {
        let reply = self.hand_in(command, place, datagram)?;
        Ok(self.fate(&reply))
    }

    fn tally(&mut self, command: &Command, reply: &Reply) {
        let piece = command.kind() == FRAGMENT;
        match reply {
            Reply::Done(values) if values[..] == [1] => self.stored(command),
            Reply::Done(_) if piece => self.count("pieces-passed-over"),
            Reply::Done(_) => self.count("passed-over"),
            Reply::Refused(NO_ROOM) if piece => self.count("pieces-refused-8"),
            Reply::Refused(NO_ROOM) => self.count("refused-8"),
            Reply::Refused(_) => self.count("refused-other"),
        }
    }

    /// A packet takes a slot, a block takes one with its first piece.
    fn stored(&mut self, command: &Command) {
        if command.kind() == FRAGMENT {
            self.count("pieces");
            if self.incoming.is_of_the_block(command) {
                return;
            }
            self.incoming.block = Some((command.channel, command.first_number()));
        }
        self.incoming.held += 1;
        self.most("most-held", self.incoming.held as u64);
    }

    /// The right plan answers stored and passed over; the others are the mistakes that a run shows.
    fn fate(&self, reply: &Reply) -> Fate {
        let answers = match (reply, self.plan.answers) {
            (Reply::Done(values), Answers::StoredOnly) => values[..] == [1],
            (Reply::Done(_), _) => true,
            (Reply::Refused(_), answers) => answers == Answers::RefusedToo,
        };
        if answers {
            Fate::Answered
        } else {
            Fate::NotAnswered
        }
    }

    /// Takes every packet that is there, so that only those before a gap hold a slot.
    fn receive(&mut self) -> Fallible<()> {
        while let Some(received) = self.link.receive()? {
            self.incoming.held -= 1;
            if received.is_block {
                self.incoming.block = None;
            }
            self.back.last = self.clock.elapsed();
            if blocks::is_block(&received.bytes) {
                self.block_came(&received)?;
            } else {
                self.report_came(&received)?;
            }
        }
        Ok(())
    }

    fn report_came(&mut self, Received { channel, bytes, .. }: &Received) -> Fallible<()> {
        let (report, wrong) = reports::check(self.plan.seed, *channel, self.plan.length, bytes);
        match report.kind {
            reports::Kind::Reliable => self.back.reliable += 1,
            reports::Kind::Unsequenced => self.back.unsequenced += 1,
        }
        self.log.event(format_args!(
            "back {} {} {} {wrong}",
            report.kind.letter(),
            report.index,
            bytes.len()
        ))
    }

    /// The door says what came, to its log and to the gateway.
    fn block_came(&mut self, Received { channel, bytes, .. }: &Received) -> Fallible<()> {
        let block = blocks::block_of(*channel, bytes);
        let wrong = blocks::bytes_wrong(self.plan.seed, *channel, bytes);
        let number = self.blocks.came;
        self.blocks.came += 1;
        self.blocks.unsaid.push_back(blocks::answer(number, block));
        self.count("blocks");
        self.log
            .event(format_args!("block {number} {channel} {} {} {wrong}", block.length, block.hash))
    }
}

#[cfg(test)]
mod tests {
    use super::*;

    fn packet(number: u32) -> Command {
        Command { byte: 134, channel: 0, number, fields: vec![48] }
    }

    fn piece(channel: u32, start: u32, number: u32) -> Command {
        let fields = vec![start, 1_364, 25, number, 32_768, 1_364 * number];
        Command { byte: 136, channel, number: start + number, fields }
    }

    fn incoming(held: usize, block: Option<(u32, u32)>) -> Incoming {
        Incoming { held, block, ..Incoming::new(Room::KeepPackets) }
    }

    #[test]
    fn a_piece_takes_its_turn_by_its_blocks_start() {
        assert_eq!((packet(7).first_number(), packet(7).payload_length()), (7, 48));
        assert_eq!((piece(0, 7, 3).first_number(), piece(0, 7, 3).payload_length()), (7, 1_364));
    }

    #[test]
    fn the_next_number_and_repeats_have_their_turn() {
        let turns = [7, 8, 9, 7 + 32_767, 7 + 32_768, 6].map(|number| is_its_turn(number, 7));
        assert_eq!(turns, [true, true, false, false, true, true]);
        assert!(is_its_turn(0, 65_535) && !is_its_turn(1, 65_535));
    }

    #[test]
    fn packets_leave_a_slot_for_a_next_number_and_one_for_a_block() {
        assert!(incoming(9, None).has_room(&packet(9)));
        assert!(!incoming(10, None).has_room(&packet(9)));
        assert!(incoming(10, Some((1, 7))).has_room(&packet(9)));
        assert!(!incoming(11, Some((1, 7))).has_room(&packet(9)));
    }

    #[test]
    fn a_begun_block_has_room_for_its_pieces_and_none_for_anothers() {
        let begun = incoming(12, Some((1, 7)));
        assert!(begun.has_room(&piece(1, 7, 24)) && !begun.is_of_another_block(&piece(1, 7, 24)));
        for other in [piece(0, 7, 0), piece(1, 32, 0)] {
            assert!(!begun.has_room(&other) && begun.is_of_another_block(&other));
            assert!(!incoming(0, None).has_room(&other));
            assert!(!incoming(0, None).is_of_another_block(&other));
        }
        assert!(!begun.is_of_another_block(&packet(9)));
    }
}
