//! The send step beside the source's packing of datagrams, on records in which one command waits.

use std::fmt;

use enet::{
    record::{place, Outgoing, Queue, Record},
    size, Bench, Packed,
};

use crate::{
    model::DISCONNECT_LATER,
    ops::step::{add, step, ACKNOWLEDGE},
    random::Random,
    records::sound::{shaped, Shape},
    tally::Tally,
};

/// The peer's flag that says that a datagram was full.
const CONTINUE_SENDING: u32 = 2;
/// The datagram's header.
const HEADER: u32 = 4;
/// The throttle's step and its scale.
const STEP: u32 = 7;
const SCALE: u32 = 32;

/// What the source does otherwise, by its cause.
#[derive(Clone, Copy, Debug, PartialEq, Eq, PartialOrd, Ord)]
enum Kind {
    Window,
    Mtu,
    Dropped,
    Counter,
    Unmarked,
    Transit,
    Attempts,
    Disconnect,
}

impl fmt::Display for Kind {
    fn fmt(&self, out: &mut fmt::Formatter) -> fmt::Result {
        out.write_str(match self {
            Kind::Window => "stopped by the window of data in transit; nothing changes",
            Kind::Mtu => "stopped by the MTU; bit 2 of the flags is set",
            Kind::Dropped => "a packet without flag 128 is dropped by the throttle, not sent",
            Kind::Counter => "a packet without flag 128 at offset 0 moves the throttle's counter",
            Kind::Unmarked => "without flag 128 attempts, sent time and timeout stay",
            Kind::Transit => "in transit grows by a piece length without a packet",
            Kind::Attempts => "65,535 attempts become 0",
            Kind::Disconnect => "in state 6 the last command gone, the source disconnects",
        })
    }
}

/// What the source should do with the command that waits.
struct Told {
    kinds: Vec<Kind>,
    packed: Packed,
    record: Record,
}

/// Compares until so many commands went out that nothing stopped; whether each difference is of a kind.
pub fn compare(seed: u64, count: u64) -> bool {
    let (mut random, mut bench) = (Random::new(seed), Bench::new());
    let (mut tally, mut gone) = (Tally::new(), 0);
    while gone < count {
        let (record, queue) = waiting(&mut random);
        let time = random.up_to(u32::MAX);
        let told = tell(&mut bench, &record, queue, time);
        let (packed, after) = bench.pack(&record, time);
        gone += u64::from(!packed.commands.is_empty());
        let same = packed == told.packed && after.row() == told.record.row();
        tally.add(told.kinds, same, || {
            format!("at time {time}: {record:?}\ngives {packed:?} and {after:?}")
        });
    }
    tally.close(&format!("records, in {gone} of them the command went out"), "the send step")
}

/// What the source should do: the send step, and what is of a kind.
fn tell(bench: &mut Bench, record: &Record, queue: Queue, time: u32) -> Told {
    let mut after = record.clone();
    let slot = queue.list(&mut after).slots().next().expect("one waits");
    let head = &record.outgoing_slots[slot];
    if past_window(record, head) {
        return Told { kinds: vec![Kind::Window], packed: Packed::default(), record: after };
    }
    if past_mtu(record, head) {
        after.numbers[place::FLAGS] |= CONTINUE_SENDING;
        return Told { kinds: vec![Kind::Mtu], packed: Packed::default(), record: after };
    }
    let mut told = if head.byte & ACKNOWLEDGE != 0 {
        acknowledged(head, after, slot, queue, time)
    } else {
        loose(head, after, queue, time)
    };
    let lists = told.record.outgoing_lists();
    if record.numbers[place::STATE] == DISCONNECT_LATER && lists.iter().all(|l| l.length == 0) {
        told.record = bench.disconnect(&told.record, record.numbers[place::EVENT_DATA]);
        told.kinds.push(Kind::Disconnect);
    }
    told
}

fn acknowledged(head: &Outgoing, mut after: Record, slot: usize, queue: Queue, time: u32) -> Told {
    let sent = step(&mut after, queue, time).expect("one waits");
    let mut kinds = Vec::new();
    if !head.packet && head.length > 0 {
        add(&mut after, place::IN_TRANSIT, head.length.into());
        kinds.push(Kind::Transit);
    }
    if head.attempts == u16::MAX {
        after.outgoing_slots[slot].attempts = 0;
        kinds.push(Kind::Attempts);
    }
    let packed = Packed { commands: vec![row(&sent)], loose: Vec::new() };
    Told { kinds, packed, record: after }
}

fn loose(head: &Outgoing, mut after: Record, queue: Queue, time: u32) -> Told {
    let mut kinds = Vec::new();
    if head.packet && head.offset == 0 {
        let counter = next_counter(&after);
        after.numbers[place::THROTTLE_COUNTER] = counter;
        if counter > after.numbers[place::THROTTLE] {
            queue.list(&mut after).take();
            return Told { kinds: vec![Kind::Dropped], packed: Packed::default(), record: after };
        }
        kinds.push(Kind::Counter);
    }
    let sent = step(&mut after, queue, time).expect("one waits");
    // Without a packet the source frees the command at once, and nothing of it can be seen but its bytes.
    let mut packed = Packed { commands: vec![row(&sent)], loose: Vec::new() };
    if head.packet {
        packed.loose.push(head.clone());
        kinds.push(Kind::Unmarked);
    }
    Told { kinds, packed, record: after }
}

/// A command's byte, channel, number and fields.
fn row(command: &Outgoing) -> Vec<u32> {
    let header = [command.byte.into(), command.channel.into(), command.number.into()];
    [&header[..], &command.fields].concat()
}

/// An acknowledged packet that would be more than may be in transit.
fn past_window(record: &Record, head: &Outgoing) -> bool {
    let numbers = &record.numbers;
    let window = numbers[place::THROTTLE].wrapping_mul(numbers[place::WINDOW_SIZE]) / SCALE;
    let transit = numbers[place::IN_TRANSIT].wrapping_add(head.length.into());
    head.byte & ACKNOWLEDGE != 0 && head.packet && transit > window.max(numbers[place::MTU])
}

/// A command that the datagram has no room for, by the source's 16 bits.
fn past_mtu(record: &Record, head: &Outgoing) -> bool {
    let room = (record.numbers[place::MTU] - HEADER) as u16;
    let size = size(head.kind) as u16;
    room < size || (head.packet && room < size.wrapping_add(head.length))
}

/// The throttle's counter after a packet without flag 128.
fn next_counter(record: &Record) -> u32 {
    record.numbers[place::THROTTLE_COUNTER].wrapping_add(STEP) % SCALE
}

/// A sound record in which one command waits; mostly nothing stops it.
fn waiting(random: &mut Random) -> (Record, Queue) {
    let queue = if random.once_in(2) { Queue::Outgoing } else { Queue::SendReliable };
    let channels: Vec<usize> = (0..random.below(4)).map(|_| random.below(2) as usize).collect();
    let shape = Shape {
        sent: random.below(6).saturating_sub(2) as usize,
        send_reliable: usize::from(queue == Queue::SendReliable),
        outgoing: usize::from(queue == Queue::Outgoing),
        dispatched: if channels.is_empty() { 0 } else { random.below(2) as usize },
        channels,
    };
    let mut record = shaped(random, &shape);
    if random.once_in(4) {
        record.numbers[place::STATE] = DISCONNECT_LATER;
    }
    let slot = queue.list(&mut record).slots().next().expect("one waits");
    turn(&mut record.outgoing_slots[slot], random);
    if !random.once_in(8) {
        unstop(&mut record, queue, random);
    }
    (record, queue)
}

/// Now and then a number where the rule turns, or just past it.
fn turn(head: &mut Outgoing, random: &mut Random) {
    if random.once_in(4) {
        head.timeout = random.pick(&[0, 1, 2]);
    }
    if random.once_in(4) {
        head.attempts = random.pick(&[0, 1, 2, 65_534, 65_535]);
    }
    if random.once_in(4) {
        head.length = random.pick(&[0, 1, 2]);
    }
    if random.once_in(4) {
        head.offset = random.pick(&[0, 1, 2]);
    }
}

/// Changes what would stop the command that waits.
fn unstop(record: &mut Record, queue: Queue, random: &mut Random) {
    let slot = queue.list(record).slots().next().expect("one waits");
    let head = record.outgoing_slots[slot].clone();
    let room = record.numbers[place::MTU] - HEADER - size(head.kind) as u32;
    if past_mtu(record, &head) {
        record.outgoing_slots[slot].length = random.up_to(room) as u16;
    }
    if past_window(record, &record.outgoing_slots[slot]) {
        record.outgoing_slots[slot].length = random.up_to(room) as u16;
        let length = u32::from(record.outgoing_slots[slot].length);
        record.numbers[place::IN_TRANSIT] = random.up_to(record.numbers[place::MTU] - length);
    }
    if next_counter(record) > record.numbers[place::THROTTLE] {
        record.numbers[place::THROTTLE] = SCALE;
    }
}

#[cfg(test)]
mod tests {
    use super::*;

    #[test]
    fn the_source_packs_100000_commands_as_the_send_step_and_its_kinds_say() {
        assert!(compare(1, 100_000));
    }

    /// A new record in which this command waits in outgoing.
    fn fresh(head: Outgoing) -> Record {
        let mut record = Record::fresh(1_392);
        record.numbers[place::STATE] = 5;
        record.outgoing_slots[0] = head;
        record.outgoing.push(0);
        record
    }

    fn ping(byte: u8) -> Outgoing {
        Outgoing { byte, kind: 5, channel: 255, ..Outgoing::default() }
    }

    /// The record after the send step, and after the source's packing, at time 0.
    fn both(record: &Record) -> (Record, Record) {
        let mut stepped = record.clone();
        step(&mut stepped, Queue::Outgoing, 0).unwrap();
        (stepped, Bench::new().pack(record, 0).1)
    }

    #[test]
    fn a_ping_goes_out_alike() {
        let (stepped, packed) = both(&fresh(ping(133)));
        assert_eq!(stepped, packed);
    }

    #[test]
    fn in_transit_grows_by_a_piece_length_without_a_packet() {
        let (stepped, packed) = both(&fresh(Outgoing { length: 1, ..ping(133) }));
        let transit = |record: &Record| record.numbers[place::IN_TRANSIT];
        assert_eq!((transit(&stepped), transit(&packed)), (0, 1));
    }

    #[test]
    fn attempts_65535_become_0() {
        let (stepped, packed) = both(&fresh(Outgoing { attempts: 65_535, ..ping(133) }));
        let attempts = |record: &Record| record.outgoing_slots[0].attempts;
        assert_eq!((attempts(&stepped), attempts(&packed)), (65_535, 0));
    }

    #[test]
    fn a_packet_without_flag_128_moves_the_throttles_counter() {
        let (stepped, packed) = both(&fresh(Outgoing { packet: true, ..ping(5) }));
        let counter = |record: &Record| record.numbers[place::THROTTLE_COUNTER];
        assert_eq!((counter(&stepped), counter(&packed)), (0, 7));
    }

    #[test]
    fn a_packet_without_flag_128_stays_unmarked() {
        let record = fresh(Outgoing { packet: true, ..ping(5) });
        let head = step(&mut record.clone(), Queue::Outgoing, 0).unwrap();
        let (packed, _) = Bench::new().pack(&record, 0);
        let marks = |command: &Outgoing| (command.attempts, command.timeout);
        assert_eq!((marks(&head), marks(&packed.loose[0])), ((1, 500), (0, 0)));
    }

    #[test]
    fn a_packet_without_flag_128_is_dropped_by_the_throttle() {
        let mut record = fresh(Outgoing { packet: true, ..ping(5) });
        record.numbers[place::THROTTLE] = 6;
        let (stepped, packed) = both(&record);
        let sent = |record: &Record| record.numbers[place::PACKETS_SENT];
        assert_eq!((sent(&stepped), sent(&packed)), (1, 0));
        assert_eq!(packed.outgoing.length, 0);
    }

    #[test]
    fn a_packet_past_the_window_waits() {
        let mut record = fresh(Outgoing { packet: true, length: 1, ..ping(133) });
        record.numbers[place::IN_TRANSIT] = 65_536;
        let (stepped, packed) = both(&record);
        assert_eq!((stepped.sent.length, &packed), (1, &record));
    }

    #[test]
    fn a_packet_past_the_mtu_waits() {
        let record = fresh(Outgoing { packet: true, length: 1_385, ..ping(5) });
        let (stepped, packed) = both(&record);
        assert_eq!((stepped.outgoing.length, packed.outgoing.length), (0, 1));
        assert_eq!(packed.numbers[place::FLAGS], CONTINUE_SENDING);
    }

    #[test]
    fn the_last_command_gone_in_state_6_the_source_disconnects() {
        let mut record = fresh(ping(5));
        record.numbers[place::STATE] = DISCONNECT_LATER;
        let (stepped, packed) = both(&record);
        let state = |record: &Record| record.numbers[place::STATE];
        assert_eq!((state(&stepped), state(&packed)), (6, 7));
        assert_eq!((stepped.outgoing.length, packed.outgoing.length), (0, 1));
        assert_eq!(packed.outgoing_slots[0].byte, 132);
    }
}
