//! A datagram that arrives: its header, its commands one by one, the call for each, and the answers to those that ask for one.

use crate::datagram::{read_header, Header, NO_PEER_ID};
use crate::door::{Door, End};
use crate::handshake::{Verified, CONNECTED, CONNECTING, DISCONNECTING, OWN_PEER_ID};
use crate::incoming::Fate;
use crate::link::{Command, Reply, FRAGMENT, RELIABLE, UNSEQUENCED};
use crate::Fallible;

/// Where the next command stands, and whether this one is answered; nothing where the rest of the datagram is not read.
type Next = Option<(usize, Fate)>;

impl Door {
    pub fn arrive(&mut self, datagram: &[u8]) -> Fallible<()> {
        self.count("datagrams-in");
        let header = match read_header(datagram) {
            Some(header) if self.is_ours(&header) => header,
            _ => {
                self.count("datagrams-not-ours");
                return Ok(());
            }
        };
        self.last_heard = self.clock.now();
        let mut place = header.size;
        while let Some((command, after)) = self.read(place, datagram)? {
            let (next, fate) = match self.command(&command, after, datagram)? {
                Some(next) => next,
                None => break,
            };
            if fate == Fate::Answered && command.is_acknowledged() {
                match header.sent_time {
                    Some(time) => self.answer(&command, time),
                    None => break,
                }
            }
            place = next;
        }
        Ok(())
    }

    /// Once the other end's id is known, its session must be the one agreed on.
    fn is_ours(&self, header: &Header) -> bool {
        let ids = self.handshake.ids;
        header.peer_id == OWN_PEER_ID
            && (ids.outgoing_peer_id == NO_PEER_ID || header.session_id == ids.incoming_session_id)
    }

    fn read(&mut self, place: usize, datagram: &[u8]) -> Fallible<Option<(Command, usize)>> {
        if place >= datagram.len() {
            return Ok(None);
        }
        self.link.read(place, datagram)
    }

    /// The call that a command is for. `after` is the place of its payload.
    fn command(&mut self, command: &Command, after: usize, datagram: &[u8]) -> Fallible<Next> {
        let connected = self.state == CONNECTED;
        Ok(match command.kind() {
            1 => self.acknowledged(command)?.then_some((after, Fate::NotAnswered)),
            3 => self.verified(command)?.then_some((after, Fate::Answered)),
            4 => {
                self.count("disconnects");
                self.end = Some(End::OtherEnd);
                Some((after, Fate::Answered))
            }
            5 if connected => Some((after, Fate::Answered)),
            RELIABLE | FRAGMENT if connected => {
                let fate = self.reliable(command, after, datagram)?;
                Some((after + command.payload_length(), fate))
            }
            UNSEQUENCED if connected => {
                let fate = self.unsequenced(command, after, datagram)?;
                Some((after + command.payload_length(), fate))
            }
            // bandwidth limit and throttle configure have no call: they are acknowledged, and the door goes on
            10 | 11 if connected => {
                self.count("commands-without-a-call");
                Some((after, Fate::Answered))
            }
            // unreliable packets and their fragments are not in the link, and a connect is for one who waits for it
            _ => {
                self.count("commands-left");
                None
            }
        })
    }

    /// Answers that the link counts take the command out of its slot; the host lets its bytes go.
    fn acknowledged(&mut self, command: &Command) -> Fallible<bool> {
        let (number, sent) = (command.fields[0], command.fields[1]);
        let reply = self.link.acknowledgement(command.channel, number, sent, self.clock.now())?;
        match reply {
            Reply::Done(values) if values[..] == [0] => self.count("acknowledgements-passed-over"),
            Reply::Done(values) => {
                self.outbox.release(command.channel, number);
                if values[..] == [3] {
                    self.end = Some(End::Left);
                }
            }
            Reply::Refused(_) => {
                self.outbox.release(command.channel, number);
                return Ok(false);
            }
        }
        Ok(true)
    }

    /// A verify that comes again is answered again, and changes nothing.
    fn verified(&mut self, command: &Command) -> Fallible<bool> {
        if self.state != CONNECTING {
            return Ok(true);
        }
        if let Verified::No = self.handshake.verify(&mut self.link, &command.fields)? {
            self.end = Some(End::OtherEnd);
            return Ok(false);
        }
        self.outbox.clear();
        let look = self.link.look()?;
        self.mtu = look.mtu;
        self.ping_interval = look.ping_interval;
        self.most("channels", u64::from(look.channel_count));
        if self.plan.start != 0 {
            self.link.start_counters(look.channel_count, self.plan.start)?;
        }
        self.state = CONNECTED;
        self.connected_at = Some(self.clock.elapsed());
        self.log.event("connected")?;
        Ok(true)
    }

    /// An acknowledgement names the channel, the number, and the sent time of the datagram that brought the command.
    fn answer(&mut self, command: &Command, sent_time: u16) {
        if self.state != DISCONNECTING {
            let fields = vec![command.number, u32::from(sent_time)];
            self.answers.push(Command {
                byte: 1,
                channel: command.channel,
                number: command.number,
                fields,
            });
        }
    }
}
