//! faults: a network between door and gateway on loopback that loses, doubles and holds back datagrams, the same for the same seed.
//!
//! Words: gateway=ADDRESS log=FILE seconds= seed= loss= doubles= held= (percent) delay= outage_at= outage= (milliseconds)

use door::fates::Faults;
use door::logs::Log;
use door::random::Random;
use door::words::Words;
use door::{told, Fallible};
use std::collections::BTreeMap;
use std::io::ErrorKind;
use std::net::{SocketAddr, UdpSocket};
use std::time::{Duration, Instant};

const KNOWN: &[&str] = &[
    "gateway",
    "log",
    "seconds",
    "seed",
    "loss",
    "doubles",
    "held",
    "delay",
    "outage_at",
    "outage",
];

/// One way through the network.
struct Way {
    name: &'static str,
    back: bool,
    random: Random,
    count: u64,
    /// By the time they are due, and a number that keeps those of one moment in order.
    waiting: BTreeMap<(Instant, u64), (u64, Vec<u8>)>,
}

struct Network {
    faults: Faults,
    log: Log,
    front: UdpSocket,
    behind: UdpSocket,
    door: Option<SocketAddr>,
    first: Option<Instant>,
    fates: BTreeMap<String, u64>,
    copies: u64,
}

impl Way {
    fn new(name: &'static str, back: bool, seed: u64) -> Way {
        Way { name, back, random: Random::new(seed), count: 0, waiting: BTreeMap::new() }
    }
}

impl Network {
    fn take(&mut self, way: &mut Way, bytes: Vec<u8>) -> Fallible<()> {
        let now = Instant::now();
        let at = now - *self.first.get_or_insert(now);
        way.count += 1;
        let fate = self.faults.fate(&mut way.random, at.as_millis() as u64);
        *self.fates.entry(format!("{}-{}", way.name, fate.word())).or_insert(0) += 1;
        // a way's datagrams are counted from 0 in logs, as the door counts them
        self.log.event(format_args!("{} {} {}", way.name, way.count - 1, fate.word()))?;
        for delay in fate.delays() {
            self.copies += 1;
            way.waiting.insert(
                (now + Duration::from_millis(delay), self.copies),
                (way.count - 1, bytes.clone()),
            );
        }
        Ok(())
    }

    fn hear(&mut self, way: &mut Way) -> Fallible<()> {
        let mut bytes = [0; 4096];
        loop {
            let heard = if way.back {
                self.behind.recv(&mut bytes).map(|n| (n, None))
            } else {
                self.front.recv_from(&mut bytes).map(|(n, from)| (n, Some(from)))
            };
            match heard {
                Ok((length, from)) => {
                    self.door = from.or(self.door);
                    self.take(way, bytes[..length].to_vec())?;
                }
                // an end that is gone refuses: nothing more is to be heard
                Err(error)
                    if error.kind() == ErrorKind::WouldBlock
                        || error.kind() == ErrorKind::ConnectionRefused =>
                {
                    return Ok(())
                }
                Err(error) => return Err(told("a socket")(error)),
            }
        }
    }

    fn deliver(&mut self, way: &mut Way) -> Fallible<()> {
        while let Some(&key) = way.waiting.keys().next().filter(|key| key.0 <= Instant::now()) {
            let (number, bytes) = way.waiting.remove(&key).unwrap_or_default();
            self.log.event(format_args!("{} {number} there", way.name))?;
            // an end that is gone takes nothing, and that is no fault of the network
            let _ = match (way.back, self.door) {
                (true, Some(door)) => self.front.send_to(&bytes, door),
                (true, None) => Ok(0),
                (false, _) => self.behind.send(&bytes),
            };
        }
        Ok(())
    }
}

fn open(words: &Words) -> Fallible<Network> {
    let faults = Faults {
        loss: words.number("loss", 0)?,
        doubles: words.number("doubles", 0)?,
        held: words.number("held", 0)?,
        delay: words.number("delay", 0)?,
        outage_at: words.number("outage_at", 0)?,
        outage: words.number("outage", 0)?,
    };
    let front = UdpSocket::bind("127.0.0.1:0").map_err(told("a socket"))?;
    let behind = UdpSocket::bind("127.0.0.1:0").map_err(told("a socket"))?;
    behind.connect(words.text("gateway", "")).map_err(told("gateway="))?;
    for socket in [&front, &behind] {
        socket.set_nonblocking(true).map_err(told("a socket"))?;
    }
    let log = Log::create(&words.text("log", "/dev/null"))?;
    Ok(Network {
        faults,
        log,
        front,
        behind,
        door: None,
        first: None,
        fates: BTreeMap::new(),
        copies: 0,
    })
}

/// Ends at its limit, or when its input ends: whoever started it holds that open.
fn run() -> Fallible<()> {
    let words = Words::read(std::env::args(), KNOWN)?;
    let mut network = open(&words)?;
    println!("port {}", network.front.local_addr().map_err(told("a socket"))?.port());
    let seed = words.number("seed", 1)?;
    let (mut out, mut back) =
        (Way::new("out", false, seed), Way::new("back", true, seed + 1_000_003));
    let end = Instant::now() + Duration::from_secs(words.number("seconds", 60)?);
    let ended = door::clock::input_ended();
    while Instant::now() < end && !ended.load(std::sync::atomic::Ordering::Relaxed) {
        network.hear(&mut out)?;
        network.hear(&mut back)?;
        network.deliver(&mut out)?;
        network.deliver(&mut back)?;
        std::thread::sleep(Duration::from_micros(200));
    }
    for (name, count) in std::mem::take(&mut network.fates) {
        network.log.sum(&name, count)?;
    }
    network.log.finish()
}

fn main() {
    if let Err(error) = run() {
        eprintln!("faults: {error}");
        std::process::exit(2);
    }
}
