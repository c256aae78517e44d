//! The record's row of numbers and its hash, as SCRIPT.md writes them.

use std::collections::BTreeSet;

use super::{place, List, Record, INCOMING, OUTGOING};

const FACTOR: u64 = 65_599;
const MODULUS: u64 = 4_294_967_291;

impl Record {
    /// All that counts in the record, in document 01's order.
    pub fn row(&self) -> Vec<u32> {
        let mut row = self.numbers[..place::FLAGS].to_vec();
        for list in [&self.sent, &self.send_reliable, &self.outgoing, &self.dispatched] {
            append(&mut row, list);
        }
        row.extend(&self.numbers[place::FLAGS..place::EVENT_DATA]);
        row.extend(self.words);
        row.extend(&self.numbers[place::EVENT_DATA..]);
        for channel in self.open_channels() {
            row.extend(channel.numbers.map(u32::from));
            append(&mut row, &channel.list);
        }
        for slot in self.used_outgoing() {
            row.extend(self.outgoing_slots[slot].numbers());
            row.extend(&self.outgoing_slots[slot].fields);
        }
        for slot in self.used_incoming() {
            row.extend(self.incoming_slots[slot].numbers());
        }
        row.extend(self.marks);
        row
    }

    /// The outgoing slots that a list names, by rising number.
    pub fn used_outgoing(&self) -> BTreeSet<usize> {
        self.outgoing_lists().iter().flat_map(|list| list.slots()).collect()
    }

    /// How many outgoing slots no list names.
    pub fn free_outgoing(&self) -> usize {
        OUTGOING - self.used_outgoing().len()
    }

    /// The incoming slots that a list names, by rising number.
    pub fn used_incoming(&self) -> BTreeSet<usize> {
        self.incoming_lists().iter().flat_map(|list| list.slots()).collect()
    }

    /// The lowest incoming slot that no list names.
    pub fn free_incoming(&self) -> Option<usize> {
        let used = self.used_incoming();
        (0..INCOMING).find(|slot| !used.contains(slot))
    }
}

/// The list's length as it is, and the cells that count.
fn append(row: &mut Vec<u32>, list: &List) {
    row.push(list.length.into());
    row.extend(list.items().iter().map(|&slot| u32::from(slot)));
}

/// The hash of a row of numbers.
pub fn hash(row: &[u32]) -> u32 {
    row.iter().fold(0, |hash, &number| (hash * FACTOR + u64::from(number)) % MODULUS) as u32
}
