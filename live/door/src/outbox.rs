//! The payload bytes, which stay with the host: a send names a length, so they are kept by queue time until they are acknowledged.

use crate::link::Step;
use crate::{reports::Name, Fallible};
use std::collections::HashMap;
use std::rc::Rc;

#[derive(Clone)]
struct Kept {
    report: Option<Name>,
    bytes: Rc<[u8]>,
}

/// By queue time what the link may still ask for; by channel and number, which an acknowledgement names, the queue time.
#[derive(Default)]
pub struct Outbox {
    /// The host count: commands queued so far. The link counts the same, and the door compares at the end.
    pub queued: u32,
    kept: HashMap<u32, Kept>,
    numbered: HashMap<(u32, u32), u32>,
}

impl Outbox {
    /// A done send, ping or setup has queued so many commands; a peer's own command has no report.
    pub fn keep(&mut self, report: Option<Name>, bytes: Vec<u8>, commands: u32) {
        let kept = Kept { report, bytes: bytes.into() };
        for _ in 0..commands {
            self.queued = self.queued.wrapping_add(1);
            self.kept.insert(self.queued, kept.clone());
        }
    }

    /// A step's report and payload. What asks for no acknowledgement is let go here.
    pub fn payload(&mut self, step: &Step) -> Fallible<(Option<Name>, Vec<u8>)> {
        let missing = || format!("no bytes are kept for queue time {}", step.queue_time);
        let kept = self.kept.get(&step.queue_time).cloned().ok_or_else(missing)?;
        let payload =
            kept.bytes.get(step.offset..step.offset + step.piece).ok_or_else(missing)?.to_vec();
        if step.command.is_acknowledged() {
            self.numbered.insert((step.command.channel, step.command.number), step.queue_time);
        } else {
            self.kept.remove(&step.queue_time);
        }
        Ok((kept.report, payload))
    }

    /// What an acknowledgement named that the link answered with done.
    pub fn release(&mut self, channel: u32, number: u32) {
        if let Some(queue_time) = self.numbered.remove(&(channel, number)) {
            self.kept.remove(&queue_time);
        }
    }

    /// After a reset nothing waits; the host count stays.
    pub fn clear(&mut self) {
        self.kept.clear();
        self.numbered.clear();
    }

    /// Commands that wait to go out or to be acknowledged: the outgoing slots in use.
    pub fn waiting(&self) -> usize {
        self.kept.len()
    }
}

/// How many commands a send queues: one, or pieces of the fragment length, MTU less 28.
pub fn commands_of(length: usize, mtu: u32) -> u32 {
    let fragment = mtu as usize - 28;
    length.div_ceil(fragment).max(1) as u32
}

#[cfg(test)]
mod tests {
    use super::*;
    use crate::link::Command;
    use crate::reports::Kind;

    fn step(queue_time: u32, offset: usize, byte: u32, number: u32) -> Step {
        let command = Command { byte, channel: 0, number, fields: vec![] };
        Step { queue_time, offset, piece: 2, attempts: 1, packet: true, command }
    }

    const REPORT: Option<Name> = Some(Name { kind: Kind::Reliable, index: 3 });

    #[test]
    fn pieces_stay_until_each_is_acknowledged() {
        let mut outbox = Outbox { queued: u32::MAX, ..Outbox::default() };
        outbox.keep(REPORT, vec![1, 2, 3, 4], 2);
        assert_eq!(outbox.payload(&step(0, 0, 136, 7)), Ok((REPORT, vec![1, 2])));
        assert_eq!(outbox.payload(&step(1, 2, 136, 8)), Ok((REPORT, vec![3, 4])));
        outbox.release(0, 7);
        assert!(outbox.payload(&step(0, 0, 136, 7)).is_err());
        assert_eq!(outbox.payload(&step(1, 2, 136, 8)), Ok((REPORT, vec![3, 4])));
        outbox.release(0, 8);
        assert_eq!(outbox.waiting(), 0);
    }

    #[test]
    fn unsequenced_bytes_go_with_their_one_sending() {
        let mut outbox = Outbox { queued: 4, ..Outbox::default() };
        outbox.keep(REPORT, vec![1, 2], 1);
        assert!(outbox.payload(&step(5, 0, 73, 0)).is_ok());
        assert_eq!(outbox.waiting(), 0);
    }

    #[test]
    fn a_send_is_one_command_or_its_pieces() {
        let lengths = [0, 548, 549, 5_000];
        assert_eq!(lengths.map(|length| commands_of(length, 576)), [1, 1, 2, 10]);
    }
}
