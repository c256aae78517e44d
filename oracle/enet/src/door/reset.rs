//! The door to `enet_peer_reset`.

use crate::{enet_peer_reset, record::Record, Bench};

impl Bench {
    /// A sound record after the source's reset, by a host of this MTU.
    pub fn reset(&mut self, mtu: u32, record: &Record) -> Record {
        let reset = |bench: &mut Bench| unsafe {
            (*bench.host).mtu = mtu;
            enet_peer_reset(bench.peer);
        };
        unsafe { self.call_over(record, Record::zero(), |bench, _| reset(bench)).1 }
    }
}

#[cfg(test)]
mod tests {
    use super::*;
    use crate::{
        limits,
        record::{place, Incoming, Outgoing, CHANNELS, INCOMING, OUTGOING},
    };

    /// A record with another number everywhere, every slot held, every list in use.
    fn full() -> Record {
        let mut record = Record::zero();
        for (place, number) in record.numbers.iter_mut().enumerate() {
            *number = place as u32 + 100;
        }
        record.words = std::array::from_fn(|word| word as u32 + 200);
        record.numbers[place::CHANNEL_COUNT] = CHANNELS as u32;
        record.numbers[place::STATE] = 5;
        for (slot, outgoing) in record.outgoing_slots.iter_mut().enumerate() {
            let (base, kind) = (1_000 * (slot as u32 + 1), 1 + slot as u8 % 12);
            *outgoing = Outgoing {
                reliable: base as u16,
                unreliable: base as u16 + 1,
                sent_time: base + 2,
                timeout: base + 3,
                queue_time: base + 4,
                offset: base + 5,
                length: base as u16 + 6,
                attempts: base as u16 + 7,
                packet: slot % 2 == 0,
                byte: kind | 128,
                channel: slot as u8 % 8,
                number: base as u16 + 8,
                kind,
                fields: limits(kind).iter().map(|limit| limit & (0x8123_4567 + base)).collect(),
            };
        }
        record.marks = [0x8123_4567, 0x7FFF_FFFF];
        // Not in the order of the slots, so that a dump by the order of the lists would differ.
        for slot in (0..OUTGOING).rev() {
            match slot % 3 {
                0 => record.sent.push(slot),
                1 => record.send_reliable.push(slot),
                _ => record.outgoing.push(slot),
            }
        }
        for slot in (0..INCOMING).rev() {
            let number = slot as u32;
            let (byte, channel) = (6 + slot as u8, slot as u8 % 8);
            record.incoming_slots[slot] = Incoming {
                byte,
                channel,
                number: number as u16 + 300,
                // One block.
                fragments: if slot == 5 { 64 } else { 0 },
                remaining: number + 500,
                length: 4_096 - 300 * number,
            };
            match slot {
                0..=3 => record.dispatched.push(slot),
                _ => record.channels[usize::from(channel)].list.push(slot),
            }
        }
        for (place, channel) in record.channels.iter_mut().enumerate() {
            channel.numbers = [1, 2, 3, 4].map(|number| 10 * place as u16 + number);
        }
        record
    }

    #[test]
    fn what_is_loaded_is_dumped() {
        let (mut bench, record) = (Bench::new(), full());
        let dumped = unsafe {
            let mut nodes = bench.load(&record);
            bench.dump(&mut nodes)
        };
        assert_eq!(dumped, record);
    }

    #[test]
    fn a_new_node_takes_the_lowest_free_slot() {
        let mut record = full();
        record.outgoing.length -= 2;
        let (freed, mut bench) = (record.outgoing.cells[9], Bench::new());
        let dumped = unsafe {
            let mut nodes = bench.load(&record);
            crate::enet_peer_ping(bench.peer);
            bench.dump(&mut nodes)
        };
        assert_eq!((freed, dumped.outgoing.items().last()), (2, Some(&2)));
        assert_eq!(dumped.outgoing_slots[2].byte, 128 | 5);
        assert_eq!(dumped.outgoing_slots[8], record.outgoing_slots[8]);
    }

    #[test]
    fn new_nodes_take_slots_in_the_order_in_which_they_were_set_up() {
        let mut record = Record::fresh(1_392);
        record.numbers[place::STATE] = 5;
        // So that the count turns between the two.
        record.numbers[place::HOST_COUNT] = u32::MAX - 1;
        let mut bench = Bench::new();
        let dumped = unsafe {
            let mut nodes = bench.load(&record);
            crate::enet_peer_ping(bench.peer);
            let packet = crate::enet_packet_create(std::ptr::null(), 0, 0);
            let ping = Outgoing { byte: 133, channel: 255, kind: 5, ..Outgoing::default() };
            let command = crate::door::load::command(&ping);
            crate::enet_peer_queue_outgoing_command(bench.peer, &command, packet, 0, 0);
            bench.dump(&mut nodes)
        };
        // The list of the second is walked first.
        assert_eq!((dumped.outgoing.items(), dumped.send_reliable.items()), (&[0][..], &[1][..]));
        assert_eq!([0, 1].map(|slot| dumped.outgoing_slots[slot].queue_time), [u32::MAX, 0]);
    }

    #[test]
    fn a_reset_keeps_five_numbers() {
        let mut expected = Record::fresh(576);
        for place in [
            place::INCOMING_PEER_ID,
            place::OUTGOING_SESSION,
            place::INCOMING_SESSION,
            place::RESERVED,
            place::HOST_COUNT,
        ] {
            expected.numbers[place] = place as u32 + 100;
        }
        assert_eq!(Bench::new().reset(576, &full()), expected);
    }

    #[test]
    fn a_reset_of_a_reset_changes_nothing_but_the_mtu() {
        let mut bench = Bench::new();
        assert_eq!(bench.reset(4_096, &Record::fresh(1_392)), Record::fresh(4_096));
        assert_eq!(bench.reset(1_392, &Record::zero()), Record::fresh(1_392));
    }
}
