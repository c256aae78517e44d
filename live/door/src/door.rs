//! The door: the turn of its loop, and how a run ends.

use crate::clock::Clock;
use crate::handshake::{Handshake, CONNECTED, CONNECTING, DISCONNECTING, PEER_ITSELF};
use crate::incoming::{Blocks, Incoming, Room};
use crate::link::{Command, Link, ASKS_FOR_ACKNOWLEDGEMENT};
use crate::logs::Log;
use crate::outbox::Outbox;
use crate::{told, Fallible};
use std::collections::BTreeMap;
use std::net::UdpSocket;
use std::time::Duration;

/// How long the answer to a disconnect is waited for.
const FAREWELL: Duration = Duration::from_millis(500);

/// When the timeout check is called: at every turn, or only once next timeout has come.
#[derive(Clone, Copy, PartialEq)]
pub enum Checks {
    EveryTurn,
    OnceDue,
    /// At every turn, and the door looks at next timeout beside it.
    Compared,
}

/// Which arrivals are answered. All but the first are mistakes, to show what becomes of them.
#[derive(Clone, Copy, PartialEq)]
pub enum Answers {
    StoredAndPassedOver,
    StoredOnly,
    RefusedToo,
}

/// What a run is to be.
pub struct Plan {
    pub reliable: u32,
    pub unsequenced: u32,
    pub length: usize,
    /// Parameter blocks that the gateway sends; the door stays until they are there.
    pub blocks: u32,
    pub seed: u32,
    /// Milliseconds between two reports of a kind.
    pub pace: u64,
    pub mtu: u32,
    /// Asked for; the other end may grant fewer.
    pub channels: u32,
    pub window: u32,
    /// Whether the host holds reliable packets back by throttle and window.
    pub uses_window: bool,
    /// Outgoing slots that reports leave free, for pings and unsequenced reports.
    pub spare: usize,
    pub room: Room,
    pub checks: Checks,
    pub answers: Answers,
    /// Where the counters start, 0 for where a reset leaves them.
    pub start: u32,
    /// How long the door stays after the last report came back; an unsequenced one that did not come yet is waited for so long.
    pub stay: Duration,
    pub limit: Duration,
}

/// How a run ended.
#[derive(Clone, Copy, Debug, PartialEq)]
pub enum End {
    /// All was said, and the disconnect was acknowledged or waited for.
    Left,
    /// The link's timeout check answered disconnect.
    GivenUp,
    /// The other end sent a disconnect, or answered the connect with something else.
    OtherEnd,
    /// The run's time is over.
    Late,
}

impl End {
    pub fn word(self) -> &'static str {
        match self {
            End::Left => "left",
            End::GivenUp => "given-up",
            End::OtherEnd => "other-end",
            End::Late => "late",
        }
    }
}

/// How many reports of each kind came back, and when the last did.
#[derive(Default)]
pub struct Back {
    pub reliable: u32,
    pub unsequenced: u32,
    pub last: Duration,
}

pub struct Door {
    pub plan: Plan,
    pub link: Link,
    pub socket: UdpSocket,
    pub clock: Clock,
    pub log: Log,
    pub handshake: Handshake,
    pub state: u32,
    pub mtu: u32,
    pub ping_interval: u32,
    pub outbox: Outbox,
    pub incoming: Incoming,
    /// Acknowledgements that go out with the next datagram.
    pub answers: Vec<Command>,
    /// How many reports of each kind were sent.
    pub next_reliable: u32,
    pub next_unsequenced: u32,
    pub back: Back,
    pub blocks: Blocks,
    /// The clock when a datagram was heard, and when a ping was queued.
    pub last_heard: u32,
    pub last_ping: u32,
    pub datagrams: u64,
    pub connected_at: Option<Duration>,
    leaving: Option<Duration>,
    pub counts: BTreeMap<&'static str, u64>,
    pub end: Option<End>,
}

impl Door {
    pub fn open(
        plan: Plan,
        mut link: Link,
        socket: UdpSocket,
        clock: Clock,
        log: Log,
    ) -> Fallible<Door> {
        socket.set_read_timeout(Some(Duration::from_millis(1))).map_err(told("the socket"))?;
        let handshake = Handshake::begin(&mut link, &plan)?;
        let mut outbox = Outbox::default();
        outbox.keep(None, Vec::new(), 1);
        let (mtu, now) = (plan.mtu, clock.now());
        Ok(Door {
            incoming: Incoming::new(plan.room),
            plan,
            link,
            socket,
            clock,
            log,
            handshake,
            state: CONNECTING,
            mtu,
            ping_interval: 0,
            outbox,
            answers: Vec::new(),
            next_reliable: 0,
            next_unsequenced: 0,
            back: Back::default(),
            blocks: Blocks::default(),
            last_heard: now,
            last_ping: now,
            datagrams: 0,
            connected_at: None,
            leaving: None,
            counts: BTreeMap::new(),
            end: None,
        })
    }

    pub fn count(&mut self, name: &'static str) {
        *self.counts.entry(name).or_insert(0) += 1;
    }

    /// The largest value seen.
    pub fn most(&mut self, name: &'static str, value: u64) {
        let entry = self.counts.entry(name).or_insert(0);
        *entry = value.max(*entry);
    }

    pub fn run(&mut self) -> Fallible<End> {
        while self.end.is_none() {
            self.turn()?;
            self.end_of_leaving();
            if self.clock.elapsed() > self.plan.limit {
                self.end = self.end.or(Some(End::Late));
            }
        }
        self.flush()?;
        Ok(self.end.unwrap_or(End::Late))
    }

    /// One turn: what came in, what is overdue, what is new, and then all that waits goes out.
    fn turn(&mut self) -> Fallible<()> {
        self.listen()?;
        self.hand_in_kept()?;
        self.check_timeouts()?;
        if self.end.is_some() {
            return Ok(());
        }
        if self.state == CONNECTED {
            self.answer_blocks()?;
            self.report()?;
            self.ping_in_silence()?;
            self.leave_when_done()?;
        }
        self.flush()
    }

    /// Datagrams that wait; the first is waited for, a millisecond at most, so that the loop neither spins nor sleeps too long.
    fn listen(&mut self) -> Fallible<()> {
        let mut bytes = [0; 4096];
        for _ in 0..64 {
            match self.socket.recv(&mut bytes) {
                Ok(length) => self.arrive(&bytes[..length])?,
                Err(_) => break,
            }
            self.socket.set_nonblocking(true).map_err(told("the socket"))?;
        }
        self.socket.set_nonblocking(false).map_err(told("the socket"))
    }

    /// Next timeout has come: the clock less it is below 86,400,000, and something waits in sent.
    fn is_due(&mut self, clock: u32) -> Fallible<bool> {
        let look = self.link.look()?;
        Ok(look.sent > 0 && clock.wrapping_sub(look.next_timeout) < 86_400_000)
    }

    fn check_timeouts(&mut self) -> Fallible<()> {
        let clock = self.clock.now();
        let due = self.plan.checks == Checks::EveryTurn || self.is_due(clock)?;
        if self.plan.checks == Checks::OnceDue && !due {
            return Ok(());
        }
        let before = self.link.hash;
        self.count("checks");
        if self.link.timeout_check(clock)? {
            self.end = Some(if self.state == DISCONNECTING { End::Left } else { End::GivenUp });
        }
        if self.link.hash != before {
            self.count("checks-that-found");
            if !due {
                self.count("checks-that-found-early");
            }
        }
        Ok(())
    }

    /// Nothing is left to say, every reliable report came back, every block came, and it was silent for long enough.
    fn leave_when_done(&mut self) -> Fallible<()> {
        let said = self.next_reliable == self.plan.reliable
            && self.next_unsequenced == self.plan.unsequenced
            && self.blocks.unsaid.is_empty();
        let came = self.back.reliable >= self.plan.reliable && self.blocks.came >= self.plan.blocks;
        let stayed = self.clock.elapsed() - self.back.last > self.plan.stay;
        if said && self.outbox.waiting() == 0 && came && stayed {
            let disconnect = Command {
                byte: 4 | ASKS_FOR_ACKNOWLEDGEMENT,
                channel: PEER_ITSELF,
                number: 0,
                fields: vec![13],
            };
            self.link.setup(&disconnect)?.done("setup of the disconnect")?;
            self.outbox.keep(None, Vec::new(), 1);
            self.enter(DISCONNECTING)?;
            self.leaving = Some(self.clock.elapsed());
        }
        Ok(())
    }

    /// Stock ENet forgets a peer once it has acknowledged its disconnect, so where that answer is lost no other comes.
    fn end_of_leaving(&mut self) {
        if self.end.is_none()
            && self.leaving.is_some_and(|since| self.clock.elapsed() - since > FAREWELL)
        {
            self.count("disconnects-unanswered");
            self.end = Some(End::Left);
        }
    }

    pub fn enter(&mut self, state: u32) -> Fallible<()> {
        self.link.set_state(state)?;
        self.state = state;
        Ok(())
    }
}
