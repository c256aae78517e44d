//! Every input of a set: setup, send, ping and send step where their rules turn.

use std::io;

use enet::{
    limits,
    record::{place, Outgoing, OUTGOING},
};

use super::LARGEST;
use crate::{
    build::set_outgoing,
    frame::Frame,
    model::CONNECTED,
    ops::{
        send::{commands, fragment, FRAGMENTS},
        setup,
    },
    output::Output,
    random::Random,
    records::{frame, settings},
};

/// Where a counter of 16 bits turns.
const TURNS: [u32; 3] = [0, 65_534, 65_535];
/// The seed of the numbers that a set leaves open.
const SEED: u64 = 1;
/// The flags of a send: all of the low four bits, and some with others above them.
const FLAGS: [u32; 24] = [
    0,
    1,
    2,
    3,
    4,
    5,
    6,
    7,
    8,
    9,
    10,
    11,
    12,
    13,
    14,
    15,
    16,
    256,
    258,
    1 << 31,
    (1 << 31) | 2,
    u32::MAX - 1,
    u32::MAX - 3,
    u32::MAX,
];

/// A set by its name on the command line.
pub type Set = fn(&mut Output) -> io::Result<()>;

pub const NAMES: [&str; 4] = ["setup", "send", "ping", "step"];

/// The set of this name.
pub fn named(name: &str) -> Option<Set> {
    match name {
        "setup" => Some(write_setup),
        "send" => Some(write_send),
        "ping" => Some(write_ping),
        "step" => Some(write_step),
        _ => None,
    }
}

/// A new record with so many channels, connected.
fn begin(output: &mut Output, mtu: u32, channels: u32) -> io::Result<()> {
    output.put(&frame(1, vec![]))?;
    output.put(&frame(2, vec![mtu, channels]))?;
    output.put(&frame(3, vec![CONNECTED]))
}

/// Sets every outgoing counter that is not at this number to it.
fn wind(output: &mut Output, turn: u32) -> io::Result<()> {
    for place in [place::RELIABLE_NUMBER, place::OUTGOING_GROUP] {
        if output.model.record.numbers[place] != turn {
            output.put(&frame(20, vec![place as u32, turn]))?;
        }
    }
    for channel in 0..output.model.record.open_channels().len() {
        for which in 0..2 {
            if u32::from(output.model.record.channels[channel].numbers[which]) != turn {
                output.put(&frame(22, vec![channel as u32, which as u32, turn]))?;
            }
        }
    }
    Ok(())
}

/// Every command byte with the fields that it names and with others, on channels that are open or not, with
/// a packet or without, at the start of it or not, from every turn of the counters.
fn write_setup(output: &mut Output) -> io::Result<()> {
    let mut random = Random::new(SEED);
    output.put(&settings(1_392, LARGEST))?;
    for count in [8, 1] {
        for turn in TURNS {
            begin(output, 1_392, count)?;
            for byte in 0..=255 {
                write_byte(output, &mut random, byte, turn)?;
            }
            output.put(&frame(15, vec![]))?;
        }
    }
    Ok(())
}

/// All of the set with this byte and turn.
fn write_byte(output: &mut Output, random: &mut Random, byte: u8, turn: u32) -> io::Result<()> {
    // Where the byte names no command, two kinds that it does not name.
    let own = if (1..=12).contains(&(byte & 15)) { byte & 15 } else { 1 };
    for kind in [own, own % 12 + 1] {
        for channel in [0, 1, 7, 255] {
            for (packet, offset) in [(0, 0), (0, 548), (1, 0), (1, 548)] {
                let piece = setup::of(random, byte, channel, kind);
                set_up(output, &setup::with(piece, packet, offset), turn)?;
            }
        }
    }
    Ok(())
}

/// The call, with every counter at the turn; where no slot is free, once so and once on a new record.
fn set_up(output: &mut Output, call: &Frame, turn: u32) -> io::Result<()> {
    if output.model.record.free_outgoing() == 0 {
        output.put(call)?;
        output.put(&frame(15, vec![]))?;
        let count = output.model.record.numbers[place::CHANNEL_COUNT];
        begin(output, 1_392, count)?;
        let total = [place::OUTGOING_TOTAL as u32, u32::MAX - 1_000];
        output.put(&frame(20, total.to_vec()))?;
    }
    wind(output, turn)?;
    output.put(call)
}

/// Every set of flags with every length where the number of pieces turns, for three MTUs, with a checksum and
/// without, from every turn of the counters; then just enough slots, one too few and one more.
fn write_send(output: &mut Output) -> io::Result<()> {
    for mtu in [576, 1_051, 1_392, 4_096] {
        for checksum in [0, 1] {
            let mut settings = settings(1_392, LARGEST);
            settings.numbers[3] = checksum;
            output.put(&settings)?;
            for turn in TURNS {
                begin(output, mtu, 2)?;
                for (length, flags) in pairs(fragment(mtu, checksum == 1)) {
                    send(output, length, flags, turn)?;
                }
                output.put(&frame(15, vec![]))?;
            }
        }
    }
    write_room(output)
}

/// Every length to try, with every set of flags.
fn pairs(fragment: u32) -> impl Iterator<Item = (u32, u32)> {
    let mut lengths = vec![0, 1, LARGEST, LARGEST + 1, u32::MAX];
    for pieces in [1, 2, 3, 31, 32, 33, FRAGMENTS] {
        // The most fragments of the larger lengths are more than 32 bits name, and then no packet.
        if let Some(length) = fragment.checked_mul(pieces) {
            lengths.extend([length - 1, length, length + 1]);
        }
    }
    lengths.into_iter().flat_map(|length| FLAGS.map(|flags| (length, flags)))
}

/// The call on channel 1, with every counter at the turn, on a new record where the slots do not suffice.
fn send(output: &mut Output, length: u32, flags: u32, turn: u32) -> io::Result<()> {
    let mtu = output.model.record.numbers[place::MTU];
    let fragment = fragment(mtu, output.model.settings.checksum);
    let (many, free) = (commands(length, fragment) as usize, output.model.record.free_outgoing());
    if many <= OUTGOING && many > free {
        begin(output, mtu, 2)?;
    }
    wind(output, turn)?;
    output.put(&frame(5, vec![1, length, flags]))
}

/// A packet of some pieces where as many slots are free, one fewer, one more.
fn write_room(output: &mut Output) -> io::Result<()> {
    output.put(&settings(1_392, LARGEST))?;
    for pieces in [1, 2, 3, 5, 31, 32] {
        for free in [pieces - 1, pieces, pieces + 1] {
            for flags in [0, 1, 2, 8] {
                begin(output, 576, 1)?;
                for _ in free..OUTGOING as u32 {
                    output.put(&frame(4, vec![]))?;
                }
                output.put(&frame(5, vec![0, 548 * pieces, flags]))?;
                output.put(&frame(15, vec![]))?;
            }
        }
    }
    Ok(())
}

/// A ping in every state, from every turn of the counters, with many slots free, with one and with none.
fn write_ping(output: &mut Output) -> io::Result<()> {
    output.put(&settings(1_392, LARGEST))?;
    for turn in TURNS {
        for free in [OUTGOING, 1, 0] {
            begin(output, 1_392, 1)?;
            for _ in free..OUTGOING {
                output.put(&frame(4, vec![]))?;
            }
            // State 5 comes last, since it takes the slot.
            for state in [0, 1, 2, 3, 4, 6, 7, 8, 9, 10, CONNECTED] {
                output.put(&frame(20, vec![place::STATE as u32, state]))?;
                wind(output, turn)?;
                output.put(&frame(4, vec![]))?;
                output.put(&frame(15, vec![]))?;
            }
        }
    }
    Ok(())
}

/// The slots of the step's set: of the command that waits, and of one that was sent.
const WAITING: usize = 5;
const SENT: usize = 9;

/// A send step of every kind of command with every two flags, from both lists, with a packet or without, where
/// attempts and timeout turn, after another sent command or none.
fn write_step(output: &mut Output) -> io::Result<()> {
    let mut random = Random::new(SEED);
    output.put(&settings(1_392, LARGEST))?;
    begin(output, 1_392, 1)?;
    let sent = Outgoing { byte: 133, channel: 255, kind: 5, attempts: 1, ..Outgoing::default() };
    output.put(&set_outgoing(SENT, &sent))?;
    for kind in 1..=12 {
        for flags in [0, 64, 128, 192] {
            write_head(output, &mut random, kind, kind | flags)?;
        }
    }
    Ok(())
}

/// All of the set with this kind and byte.
fn write_head(output: &mut Output, random: &mut Random, kind: u8, byte: u8) -> io::Result<()> {
    for attempts in [0, 1, 65_534, 65_535] {
        for timeout in [0, 1, u32::MAX] {
            for packet in [false, true] {
                let any = command(random, kind, byte);
                step_each(output, random, &Outgoing { attempts, timeout, packet, ..any })?;
            }
        }
    }
    Ok(())
}

/// The step of this command from both lists, after another sent command or none.
fn step_each(output: &mut Output, random: &mut Random, waiting: &Outgoing) -> io::Result<()> {
    for list in [0, 1] {
        for sent in [0, 1] {
            // The lists by their numbers in op 21, where outgoing is 2 and send-reliable 1.
            let lists = [(0, sent, SENT), (2 - list, 1, WAITING)];
            output.put(&set_outgoing(WAITING, waiting))?;
            for (which, length, first) in lists {
                output.put(&frame(21, vec![which, 0, length]))?;
                output.put(&frame(21, vec![which, 1, first as u32]))?;
            }
            for place in [place::ROUND_TRIP, place::ROUND_TRIP_VARIANCE] {
                output.put(&frame(20, vec![place as u32, random.up_to(u32::MAX)]))?;
            }
            output.put(&frame(7, vec![list, random.up_to(u32::MAX)]))?;
        }
    }
    Ok(())
}

/// A command of this byte on channel 0, all else any number that fits.
fn command(random: &mut Random, kind: u8, byte: u8) -> Outgoing {
    Outgoing {
        reliable: random.up_to(65_535) as u16,
        unreliable: random.up_to(65_535) as u16,
        sent_time: random.up_to(u32::MAX),
        queue_time: random.up_to(u32::MAX),
        offset: random.up_to(u32::MAX),
        length: random.up_to(65_535) as u16,
        byte,
        number: random.up_to(65_535) as u16,
        kind,
        fields: limits(kind).iter().map(|limit| random.up_to(*limit)).collect(),
        ..Outgoing::default()
    }
}

#[cfg(test)]
mod tests {
    use super::*;

    /// How often this op replied this number in the set.
    fn count(name: &str, reply: &str) -> usize {
        let mut lines = Vec::new();
        let write = named(name).unwrap();
        write(&mut Output::new(io::sink(), &mut lines)).unwrap();
        let lines = String::from_utf8(lines).unwrap();
        lines.lines().filter(|line| line.starts_with(reply)).count()
    }

    #[test]
    fn every_setup_is_tried_and_each_refusal_met() {
        let open = 3 * 192 * 4 * 4;
        assert_eq!(count("setup", "6 0 "), open + open / 2);
        for refusal in ["6 2 ", "6 5 ", "6 9 "] {
            assert!(count("setup", refusal) > 100, "{refusal}");
        }
        assert_eq!(count("setup", "6 bad"), 0);
    }

    #[test]
    fn every_send_is_tried_and_each_refusal_met() {
        for reply in ["5 0 ", "5 3 ", "5 4 ", "5 5 "] {
            assert!(count("send", reply) > 100, "{reply}");
        }
    }

    #[test]
    fn a_ping_is_done_in_state_5_alone() {
        // Once with many slots and once with one, from three turns; and those that fill the slots.
        assert_eq!(count("ping", "4 0 "), 3 * (2 + 31 + 32));
        assert_eq!(count("ping", "4 5 "), 3);
        assert_eq!(count("ping", "4 1 "), 3 * 3 * 10);
    }

    #[test]
    fn every_send_step_finds_a_head() {
        assert_eq!(count("step", "7 0 1 "), 12 * 4 * 4 * 3 * 2 * 4);
        assert_eq!(count("step", "7"), 12 * 4 * 4 * 3 * 2 * 4);
    }
}
