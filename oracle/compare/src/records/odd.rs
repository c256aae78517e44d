//! Records that look damaged and are not: at the edges of the rules, or wrong where it does not count.

use enet::record::{place, Record};

use super::{
    block,
    sound::{packets, rich, settle, shaped, Shape},
};
use crate::random::Random;

/// A kind by its name, and how such a record is made.
pub type Odd = (&'static str, fn(&mut Random) -> Record);

pub const ODDS: &[Odd] = &[
    ("MTU 576", |random| edited(random, |record| record.numbers[place::MTU] = 576)),
    ("MTU 4096", |random| edited(random, |record| record.numbers[place::MTU] = 4_096)),
    ("state 10", |random| edited(random, |record| record.numbers[place::STATE] = 10)),
    ("count 0", |random| {
        let shape = Shape { sent: 4, send_reliable: 4, outgoing: 4, ..Shape::default() };
        shaped(random, &shape)
    }),
    ("count 8", |random| {
        let shape = Shape { dispatched: 4, channels: vec![1; 8], ..Shape::default() };
        shaped(random, &shape)
    }),
    ("32 sent", |random| shaped(random, &Shape { sent: 32, ..Shape::default() })),
    ("32 in send-reliable", |random| {
        shaped(random, &Shape { send_reliable: 32, ..Shape::default() })
    }),
    ("32 in outgoing", |random| shaped(random, &Shape { outgoing: 32, ..Shape::default() })),
    ("12 dispatched", |random| {
        shaped(random, &Shape { dispatched: 12, channels: vec![0], ..Shape::default() })
    }),
    ("12 in a channel", |random| {
        shaped(random, &Shape { channels: vec![0, 12], ..Shape::default() })
    }),
    ("4096 bytes", |random| {
        edited(random, |record| {
            for packet in &mut record.incoming_slots {
                packet.length = 4_096;
            }
        })
    }),
    ("no flags on any command", |random| {
        edited(random, |record| {
            for command in &mut record.outgoing_slots {
                command.byte &= 15;
            }
        })
    }),
    ("all on the peer itself", |random| {
        edited(random, |record| {
            for command in &mut record.outgoing_slots {
                command.channel = 255;
            }
        })
    }),
    ("no attempts outside sent", |random| {
        edited(random, |record| {
            let lists = [&record.send_reliable, &record.outgoing];
            let slots: Vec<usize> = lists.iter().flat_map(|list| list.slots()).collect();
            for slot in slots {
                record.outgoing_slots[slot].attempts = 0;
            }
        })
    }),
    ("the same number on every packet, byte 0, fragments remaining of none", |random| {
        edited(random, |record| {
            block::strip(record);
            for packet in &mut record.incoming_slots {
                (packet.byte, packet.number) = (0, 7);
                packet.remaining = u32::MAX;
            }
        })
    }),
    ("no slot of these numbers, past the lengths", |random| {
        edited(random, |record| {
            let sent = usize::from(record.sent.length);
            record.sent.cells[sent] = 65_535;
            let dispatched = usize::from(record.dispatched.length);
            record.dispatched.cells[dispatched] = 12;
        })
    }),
    ("a channel at the count whose list is too long", |random| {
        edited(random, |record| {
            let count = record.open_channels().len();
            record.channels[count].list.length = 13;
        })
    }),
    ("a channel at the count that holds a held slot", |random| {
        edited(random, |record| {
            let (count, slot) = (record.open_channels().len(), record.dispatched.cells[0]);
            record.channels[count].list.push(slot.into());
        })
    }),
    ("a free incoming slot of 65535 bytes", |random| {
        edited(random, |record| {
            let used = record.used_incoming();
            let free = (0..record.incoming_slots.len()).find(|slot| !used.contains(slot));
            let free = free.expect("a rich record leaves slots free");
            record.incoming_slots[free].length = 65_535;
            record.incoming_slots[free].channel = 255;
        })
    }),
    ("a free incoming slot of fragments", |random| {
        edited(random, |record| {
            let free = record.free_incoming().expect("a rich record leaves slots free");
            record.incoming_slots[free].fragments = 65;
        })
    }),
    ("a whole block of 64 pieces and 32768 bytes", |random| {
        blocked(random, |record, slot| block::put_whole(record, slot, 32_768, 64))
    }),
    ("a block of 64 pieces that has the first and the last", |random| {
        blocked(random, |record, slot| block::put(record, slot, 64, 64, 1 << 63 | 1))
    }),
    ("a block of one piece that has none, of one byte", |random| {
        blocked(random, |record, slot| block::put(record, slot, 1, 1, 0))
    }),
    ("a block of 33 pieces and 4097 bytes, byte 0", |random| {
        blocked(random, |record, slot| {
            record.incoming_slots[slot].byte = 0;
            block::put(record, slot, 4_097, 33, 1 << 32);
        })
    }),
    ("a block of 64 pieces and 3 bytes", |random| {
        blocked(random, |record, slot| block::put(record, slot, 3, 64, u64::MAX >> 1))
    }),
    ("an unfinished block in dispatched", |random| {
        blocked(random, |record, _| {
            let slot = usize::from(record.dispatched.cells[0]);
            block::put(record, slot, 700, 5, 0b10);
        })
    }),
    ("a free outgoing slot whose byte names another command", |random| {
        edited(random, |record| {
            let used = record.used_outgoing();
            let free = (0..record.outgoing_slots.len()).find(|slot| !used.contains(slot));
            let free = free.expect("a rich record leaves slots free");
            let command = &mut record.outgoing_slots[free];
            (command.kind, command.byte, command.channel) = (5, 6, 254);
        })
    }),
];

/// A rich record whose last channel's last packet this makes a block.
fn blocked(random: &mut Random, make: fn(&mut Record, usize)) -> Record {
    let mut record = packets(random);
    let channel = record.open_channels().last().expect("a rich record has channels");
    let slot = channel.list.slots().last().expect("and two in each list");
    make(&mut record, slot);
    settle(&mut record);
    record
}

/// A rich record after this edit, with the waiting total that it then has.
fn edited(random: &mut Random, edit: fn(&mut Record)) -> Record {
    let mut record = rich(random);
    edit(&mut record);
    settle(&mut record);
    record
}

#[cfg(test)]
mod tests {
    use super::*;
    use crate::damage::damaged;

    #[test]
    fn none_is_judged_damaged() {
        let mut random = Random::new(1);
        for (name, make) in ODDS {
            for _ in 0..50 {
                assert!(!damaged(&make(&mut random)), "{name}");
            }
        }
    }
}
