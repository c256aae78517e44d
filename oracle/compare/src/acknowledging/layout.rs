//! Records by their outgoing lists, a letter a command.

use enet::{
    limits,
    record::{place, List, Outgoing, Record},
};

use crate::model::CONNECTED;

/// The command that is asked for.
pub const CHANNEL: u8 = 1;
pub const NUMBER: u16 = 500;

/// The flag that asks for acknowledgement.
const ACKNOWLEDGE: u8 = 128;

/// Which list of a record is meant.
type Which = fn(&mut Record) -> &mut List;

/// The lists sent, outgoing and send-reliable. Asked for are `T`, `t` without flag 128 and `U` with 0 attempts; `c` has
/// its number on another channel; of other numbers are `o`, `p` without flag 128 and attempts, `u` without attempts.
pub type Layout = [&'static str; 3];

/// The command that is asked for, as it stands wherever it stands.
#[derive(Clone, Copy)]
pub struct Asked {
    pub kind: u8,
    pub packet: bool,
}

/// A connected record of two channels with these lists.
pub fn record(layout: &Layout, asked: Asked) -> Record {
    let mut record = Record::fresh(1_392);
    record.numbers[place::STATE] = CONNECTED;
    record.numbers[place::CHANNEL_COUNT] = 2;
    let [sent, outgoing, send_reliable] = layout;
    let lists: [(&str, Which); 3] = [
        (sent, |record| &mut record.sent),
        (outgoing, |record| &mut record.outgoing),
        (send_reliable, |record| &mut record.send_reliable),
    ];
    let mut next = 0;
    for (letters, list) in lists {
        for letter in letters.chars() {
            // Not in the order of the lists, and each once.
            let slot = next * 13 % 32;
            record.outgoing_slots[slot] = command(letter, next, asked);
            list(&mut record).push(slot);
            next += 1;
        }
    }
    record
}

fn command(letter: char, place: usize, asked: Asked) -> Outgoing {
    let own = "TtUc".contains(letter);
    let Asked { kind, packet } = if own { asked } else { other(place) };
    Outgoing {
        reliable: if own { NUMBER } else { NUMBER + 1 + place as u16 },
        unreliable: place as u16,
        sent_time: 190_000 + 10 * place as u32,
        timeout: 300 + place as u32,
        queue_time: place as u32,
        offset: 0,
        length: 40 + place as u16,
        attempts: if "Upu".contains(letter) { 0 } else { 1 + place as u16 % 3 },
        packet,
        byte: if "tp".contains(letter) { kind } else { kind | ACKNOWLEDGE },
        channel: if letter == 'c' { 255 } else { CHANNEL },
        // Only the slot's own number is looked for.
        number: NUMBER ^ 3,
        kind,
        fields: vec![0; limits(kind).len()],
    }
}

/// Another command, with a packet or without.
fn other(place: usize) -> Asked {
    match place % 2 {
        0 => Asked { kind: 6, packet: true },
        _ => Asked { kind: 5, packet: false },
    }
}
