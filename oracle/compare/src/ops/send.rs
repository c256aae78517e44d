//! Op 5: send. Refusal 5 is document 01's, since the source has no slots; the others are the source's own.

use enet::{
    record::{place, Record},
    Limits, Packet,
};

use super::Group;
use crate::{
    frame::Frame,
    model::{Model, Settings, CONNECTED},
    random::Random,
};

/// The most fragments of a packet.
pub const FRAGMENTS: u32 = 1_048_576;

pub const GROUP: Group = Group { name: "5", weight: 2, frame, line };

fn frame(random: &mut Random, _: u64) -> Frame {
    let mtu = random.pick(&[576, 1_392, 4_096]);
    let checksum = random.once_in(2);
    drawn(random, fragment(mtu, checksum), 8)
}

/// A send on some channel, mostly one below the count, of some length, mostly around whole fragments.
pub fn drawn(random: &mut Random, fragment: u32, count: u32) -> Frame {
    let channel = match random.below(16) {
        0 => random.pick(&[count, 8, 254, 255, 256, u32::MAX]),
        _ => random.below(count.max(1).into()) as u32,
    };
    let flags = match random.below(8) {
        0 => random.number(),
        _ => random.below(16) as u32,
    };
    Frame { op: 5, numbers: vec![channel, length(random, fragment), flags], ..Frame::default() }
}

fn length(random: &mut Random, fragment: u32) -> u32 {
    let pieces = match random.below(16) {
        0 => return random.pick(&[33_554_432, 33_554_433, 1 << 30, (1 << 30) + 1, u32::MAX]),
        1 => random.pick(&[31, 32, 33, FRAGMENTS]),
        2 => random.below(40) as u32,
        3..=5 => 2 + random.below(3) as u32,
        6..=8 => 1,
        _ => return random.up_to(fragment),
    };
    // One byte less, just as many, or one more.
    (pieces * fragment + random.below(3) as u32).saturating_sub(1)
}

/// The fragment length: MTU - 28, less 4 with a checksum.
pub fn fragment(mtu: u32, checksum: bool) -> u32 {
    mtu - 28 - if checksum { 4 } else { 0 }
}

/// How many commands a packet takes.
pub fn commands(length: u32, fragment: u32) -> u32 {
    length.div_ceil(fragment).max(1)
}

fn line(model: &mut Model, frame: &Frame) -> String {
    let Ok(channel) = u8::try_from(frame.number(0)) else {
        return frame.bad();
    };
    if let Some(number) = model.refusal() {
        return model.reply(frame, number);
    }
    let packet = Packet { channel, length: frame.number(1), flags: frame.number(2) };
    // There the source would go on, for want of slots that can be full.
    if refusal(&model.record, &model.settings, packet) == Some(5) {
        return model.reply(frame, 5);
    }
    let limits = Limits { packet: model.settings.packet, checksum: model.settings.checksum };
    let (number, after) = model.bench.send(&model.record, limits, packet);
    model.record = after;
    model.reply(frame, number)
}

/// Document 01's refusals of a sound record, in their order.
fn refusal(record: &Record, settings: &Settings, packet: Packet) -> Option<u32> {
    if record.numbers[place::STATE] != CONNECTED {
        return Some(1);
    }
    if u32::from(packet.channel) >= record.numbers[place::CHANNEL_COUNT] {
        return Some(2);
    }
    if packet.length > settings.packet {
        return Some(3);
    }
    let fragment = fragment(record.numbers[place::MTU], settings.checksum);
    match commands(packet.length, fragment) {
        many if many > FRAGMENTS => Some(4),
        many if many as usize > record.free_outgoing() => Some(5),
        _ => None,
    }
}

#[cfg(test)]
mod tests {
    use super::*;
    use crate::records::sound;
    use enet::Bench;

    const LIMITS: Limits = Limits { packet: 1 << 30, checksum: false };

    fn connected(mtu: u32) -> Record {
        let mut record = Record::fresh(mtu);
        record.numbers[place::STATE] = CONNECTED;
        record.numbers[place::CHANNEL_COUNT] = 1;
        record
    }

    fn sent(record: &Record, length: u32, flags: u32) -> Record {
        let packet = Packet { channel: 0, length, flags };
        let (number, after) = Bench::new().send(record, LIMITS, packet);
        assert_eq!(number, 0);
        after
    }

    /// The byte and the piece length of each command that waits.
    fn waiting(record: &Record) -> Vec<(u8, u16)> {
        let lists = [&record.send_reliable, &record.outgoing];
        let slots = lists.into_iter().flat_map(|list| list.slots());
        slots.map(|slot| &record.outgoing_slots[slot]).map(|c| (c.byte, c.length)).collect()
    }

    #[test]
    fn the_source_refuses_1_to_4_as_document_01_says() {
        let (mut random, mut bench) = (Random::new(1), Bench::new());
        let mut met = [0; 6];
        for _ in 0..5_000 {
            let mut record = sound::any(&mut random);
            if !random.once_in(4) {
                record.numbers[place::STATE] = CONNECTED;
            }
            // With a large MTU no packet that the setting allows has too many fragments.
            if random.once_in(2) {
                record.numbers[place::MTU] = 576;
            }
            let checksum = random.once_in(2);
            let packet = random.pick(&[33_554_432, 1 << 30]);
            let settings = Settings { packet, checksum, ..Settings::START };
            let fragment = fragment(record.numbers[place::MTU], checksum);
            let frame = drawn(&mut random, fragment, record.numbers[place::CHANNEL_COUNT]);
            let Ok(channel) = u8::try_from(frame.number(0)) else {
                continue;
            };
            let packet = Packet { channel, length: frame.number(1), flags: frame.number(2) };
            let expected = refusal(&record, &settings, packet).unwrap_or(0);
            met[expected as usize] += 1;
            if expected == 5 {
                continue;
            }
            let limits = Limits { packet: settings.packet, checksum };
            let (number, after) = bench.send(&record, limits, packet);
            assert_eq!(number, expected);
            assert!(number == 0 || after == record, "a refusal changes nothing");
        }
        assert!(met.iter().all(|count| *count >= 10), "{met:?}");
    }

    #[test]
    fn case_p8_one_command_or_pieces_548_and_1() {
        assert_eq!(waiting(&sent(&connected(576), 548, 1)), [(134, 548)]);
        assert_eq!(waiting(&sent(&connected(576), 549, 1)), [(136, 548), (136, 1)]);
    }

    #[test]
    fn an_oversized_packet_with_flag_2_alone_goes_reliable() {
        assert_eq!(waiting(&sent(&connected(576), 549, 2)), [(136, 548), (136, 1)]);
        assert_eq!(waiting(&sent(&connected(576), 548, 2)), [(73, 548)]);
    }

    #[test]
    fn an_oversized_packet_with_flag_8_goes_unreliable_below_number_65535() {
        let mut record = connected(576);
        assert_eq!(waiting(&sent(&record, 549, 8)), [(12, 548), (12, 1)]);
        record.channels[0].numbers[1] = 65_535;
        assert_eq!(waiting(&sent(&record, 549, 8)), [(136, 548), (136, 1)]);
    }

    #[test]
    fn a_spent_unreliable_number_makes_a_packet_reliable() {
        let mut record = connected(576);
        assert_eq!(waiting(&sent(&record, 1, 0)), [(7, 1)]);
        record.channels[0].numbers[1] = 65_535;
        assert_eq!(waiting(&sent(&record, 1, 0)), [(134, 1)]);
    }

    #[test]
    fn pieces_take_the_lowest_free_slots_in_their_order() {
        let mut record = connected(576);
        for slot in [0, 2, 3] {
            record.sent.push(slot);
            record.outgoing_slots[slot].attempts = 1;
            (record.outgoing_slots[slot].byte, record.outgoing_slots[slot].kind) = (133, 5);
        }
        let after = sent(&record, 3 * 548, 1);
        assert_eq!(after.send_reliable.items(), [1, 4, 5]);
        let offsets = [1, 4, 5].map(|slot| after.outgoing_slots[slot].offset);
        assert_eq!(offsets, [0, 548, 1_096]);
    }
}
