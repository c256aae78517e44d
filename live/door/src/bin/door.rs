//! door: a host around the proved link. It connects to a gateway, sends its reports, counts what comes back, and leaves.
//!
//! Words: see KNOWN; after `--` the command that runs replay (`./replay --program` says it).

use door::clock::{end_after, Clock};
use door::door::{Answers, Checks, Door, End, Plan};
use door::incoming::Room;
use door::link::Link;
use door::logs::Log;
use door::look::{Look, OUTGOING_SLOTS};
use door::reports::SHORT;
use door::words::Words;
use door::{told, Fallible};
use std::net::UdpSocket;
use std::time::Duration;

const KNOWN: &[&str] = &[
    "gateway",
    "log",
    "seconds",
    "seed",
    "reliable",
    "unsequenced",
    "length",
    "blocks",
    "pace",
    "mtu",
    "channels",
    "window",
    "spare",
    "room",
    "checks",
    "answers",
    "start",
    "stay",
    "stay",
    "clock",
];

fn choice<T: Copy>(words: &Words, name: &str, choices: &[(&str, T)]) -> Fallible<T> {
    let text = words.text(name, choices[0].0);
    let found = choices.iter().find(|choice| choice.0 == text);
    found.map(|choice| choice.1).ok_or(format!("{name}={text} is no choice"))
}

const ROOMS: &[(&str, Room)] =
    &[("packets", Room::KeepPackets), ("last", Room::KeepLast), ("all", Room::TakeAll)];
const CHECKS: &[(&str, Checks)] =
    &[("turn", Checks::EveryTurn), ("due", Checks::OnceDue), ("compared", Checks::Compared)];
const ANSWERS: &[(&str, Answers)] = &[
    ("right", Answers::StoredAndPassedOver),
    ("stored-only", Answers::StoredOnly),
    ("refused-too", Answers::RefusedToo),
];

fn plan(words: &Words) -> Fallible<Plan> {
    let window = words.number("window", 0)?;
    Ok(Plan {
        reliable: words.number("reliable", 500)?,
        unsequenced: words.number("unsequenced", 500)?,
        length: words.number("length", SHORT)?,
        blocks: words.number("blocks", 0)?,
        seed: words.number("seed", 1)?,
        pace: words.number("pace", 2)?,
        mtu: words.number("mtu", 1392)?,
        channels: words.number("channels", 2)?,
        window: if window == 0 { 65_536 } else { window },
        uses_window: window != 0,
        spare: words.number("spare", 12)?,
        room: choice(words, "room", ROOMS)?,
        checks: choice(words, "checks", CHECKS)?,
        answers: choice(words, "answers", ANSWERS)?,
        start: words.number("start", 0)?,
        stay: Duration::from_millis(words.number("stay", 300)?),
        limit: Duration::from_secs(words.number("seconds", 30)?),
    })
}

/// What the host counted for itself must be what stands in the record.
fn compare(door: &mut Door) -> Fallible<()> {
    let look = door.link.look()?;
    if look.host_count != door.outbox.queued
        || look.free_outgoing() + door.outbox.waiting() != OUTGOING_SLOTS
    {
        return Err(format!(
            "the host counted {} queued and {} waiting, the record says {} and {}",
            door.outbox.queued,
            door.outbox.waiting(),
            look.host_count,
            OUTGOING_SLOTS - look.free_outgoing()
        ));
    }
    let incoming = &door.incoming;
    if look.incoming != incoming.held || (look.marks != [0, 0]) != incoming.block.is_some() {
        return Err(format!(
            "the host counted {} incoming and the block {:?}, the record says {} and marks {:?}",
            incoming.held, incoming.block, look.incoming, look.marks
        ));
    }
    let early = incoming.block.is_some_and(|(channel, start)| {
        look.last_numbers.get(channel as usize).is_some_and(|last| start != (last + 1) & 0xffff)
    });
    door.most("blocks-out-of-turn", u64::from(early));
    turned_over(door, &look);
    door.most("throttle", u64::from(look.packet_throttle));
    door.most("round-trip", u64::from(look.round_trip));
    Ok(())
}

/// Counters that started near their end, and are past it now.
fn turned_over(door: &mut Door, look: &Look) {
    let start = door.plan.start;
    let below = |number: Option<&u32>| u64::from(number.is_some_and(|number| *number < start));
    door.most("numbers-out-turned", below(look.given_numbers.first()));
    door.most("numbers-back-turned", below(look.last_numbers.first()));
    door.most("numbers-of-blocks-turned", below(look.last_numbers.get(1)));
    door.most("groups-out-turned", below(Some(&look.outgoing_group)));
    door.most("groups-back-turned", u64::from(look.incoming_group < start - start % 1024));
    door.most("clock-turned", u64::from(door.clock.now() < door.clock.first()));
}

fn finish(mut door: Door, end: End) -> Fallible<()> {
    compare(&mut door)?;
    door.log.sum("end", end.word())?;
    door.log.sum("sent-reliable", door.next_reliable)?;
    door.log.sum("sent-unsequenced", door.next_unsequenced)?;
    door.log.sum("clock-first", door.clock.first())?;
    door.log.sum("clock-last", door.clock.now())?;
    door.log.sum("window", door.handshake.window)?;
    door.log.sum("mtu", door.mtu)?;
    door.log.sum("milliseconds", door.clock.elapsed().as_millis())?;
    door.log.sum("calls", door.link.calls)?;
    door.log.sum("datagrams-out", door.datagrams)?;
    for (name, count) in std::mem::take(&mut door.counts) {
        door.log.sum(name, count)?;
    }
    door.log.finish()
}

fn run() -> Fallible<()> {
    let words = Words::read(std::env::args(), KNOWN)?;
    let plan = plan(&words)?;
    end_after(plan.limit + Duration::from_secs(5), "door");
    let link = Link::start(&words.command)?;
    let socket = UdpSocket::bind("127.0.0.1:0").map_err(told("a socket"))?;
    socket.connect(words.text("gateway", "")).map_err(told("gateway="))?;
    let log = Log::create(&words.text("log", "/dev/null"))?;
    let clock = Clock::starting_at(words.number("clock", 1)?);
    let mut door = Door::open(plan, link, socket, clock, log)?;
    let end = door.run()?;
    finish(door, end)
}

fn main() {
    if let Err(error) = run() {
        eprintln!("door: {error}");
        std::process::exit(2);
    }
}
