//! What goes out: new reports, pings, and at the end of a turn every command that waits, packed into datagrams.

use crate::datagram::Packing;
use crate::door::Door;
use crate::link::{Reply, Step, FROM_OUTGOING, FROM_SEND_RELIABLE};
use crate::look::OUTGOING_SLOTS;
use crate::outbox::commands_of;
use crate::reports::{bytes, length_of, Kind, Name};
use crate::{told, Fallible};

const THROTTLE_SCALE: u32 = 32;

impl Door {
    /// Reports are made at the plan's pace, a reliable and an unsequenced one in turn; what finds no slot is made at a later turn.
    pub fn report(&mut self) -> Fallible<()> {
        let since =
            (self.clock.elapsed() - self.connected_at.unwrap_or_default()).as_millis() as u64;
        let pace = self.plan.pace.max(1);
        let due = |half: u64, all: u32| u64::from(all).min((since + pace - half) / pace) as u32;
        let (reliable, unsequenced) =
            (due(0, self.plan.reliable), due(pace / 2, self.plan.unsequenced));
        while self.next_reliable < reliable
            && self.send(Name { kind: Kind::Reliable, index: self.next_reliable })?
        {
            self.next_reliable += 1;
        }
        while self.next_unsequenced < unsequenced
            && self.send(Name { kind: Kind::Unsequenced, index: self.next_unsequenced })?
        {
            self.next_unsequenced += 1;
        }
        Ok(())
    }

    /// Whether the link took the report. Reliable ones leave the spare slots free, since they hold theirs until they are acknowledged.
    fn send(&mut self, report: Name) -> Fallible<bool> {
        let length = length_of(report.kind, self.plan.length);
        let commands = commands_of(length, self.mtu);
        let spare = if report.kind == Kind::Reliable { self.plan.spare } else { 0 };
        if self.outbox.waiting() + commands as usize + spare > OUTGOING_SLOTS {
            self.count("reports-that-waited");
            return Ok(false);
        }
        self.link.send(report.kind.channel(), length, report.kind.flags())?.done("send")?;
        self.outbox.keep(Some(report), bytes(self.plan.seed, report, length), commands);
        Ok(true)
    }

    /// For each block that came the door sends up what it was, reliably, as soon as there is a slot.
    pub fn answer_blocks(&mut self) -> Fallible<()> {
        while self.outbox.waiting() + self.plan.spare < OUTGOING_SLOTS {
            let Some(answer) = self.blocks.unsaid.pop_front() else { break };
            let kind = Kind::Reliable;
            self.link.send(kind.channel(), answer.len(), kind.flags())?.done("send")?;
            self.outbox.keep(None, answer, 1);
        }
        Ok(())
    }

    /// In silence a ping goes out at every interval, while reports wait too: its acknowledgement is what resets the earliest timeout.
    pub fn ping_in_silence(&mut self) -> Fallible<()> {
        let now = self.clock.now();
        let silent = self.link.distance(now, self.last_heard)? >= self.ping_interval;
        if !silent || self.link.distance(now, self.last_ping)? < self.ping_interval {
            return Ok(());
        }
        self.last_ping = now;
        match self.link.ping()? {
            Reply::Done(_) => {
                self.count("pings");
                self.outbox.keep(None, Vec::new(), 1);
            }
            Reply::Refused(_) => self.count("pings-refused"),
        }
        Ok(())
    }

    /// Answers first, then the peer's own commands and unsequenced packets, then reliable ones.
    pub fn flush(&mut self) -> Fallible<()> {
        let clock = self.clock.now();
        let mut packing = Packing::new(self.handshake.ids, clock, self.mtu);
        for answer in std::mem::take(&mut self.answers) {
            packing.add(&self.link.write(&answer)?, &[], false);
        }
        for list in [FROM_OUTGOING, FROM_SEND_RELIABLE] {
            while self.may_send(list)? {
                match self.link.send_step(list, clock)? {
                    Some(step) => self.pack(&mut packing, &step)?,
                    None => break,
                }
            }
        }
        for datagram in packing.datagrams() {
            self.datagrams += 1;
            self.socket.send(&datagram).map_err(told("the socket"))?;
        }
        Ok(())
    }

    fn pack(&mut self, packing: &mut Packing, step: &Step) -> Fallible<()> {
        let (report, payload) = self.outbox.payload(step)?;
        let command = self.link.write(&step.command)?;
        let number =
            self.datagrams + packing.add(&command, &payload, step.command.is_acknowledged()) as u64;
        if step.attempts > 1 {
            self.count("sent-again");
        }
        if let Some(report) = report {
            self.log.event(format_args!(
                "sent {} {} {number} {}",
                report.kind.letter(),
                report.index,
                step.attempts
            ))?;
        }
        Ok(())
    }

    /// Throttle and window stand in the record, and no call asks for them: the host may hold reliable packets back by the source's rule.
    fn may_send(&mut self, list: u32) -> Fallible<bool> {
        if !self.plan.uses_window || list == FROM_OUTGOING {
            return Ok(true);
        }
        let look = self.link.look()?;
        let window = (look.packet_throttle * self.handshake.window / THROTTLE_SCALE).max(look.mtu);
        self.most("most-in-transit", u64::from(look.in_transit));
        let may = look.in_transit + self.plan.length.min(look.mtu as usize - 28) as u32 <= window;
        if !may && look.send_reliable > 0 {
            self.count("held-by-window");
        }
        Ok(may)
    }
}
