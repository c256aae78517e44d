//! What the source did beside document 01. Where it does otherwise is a list of kinds: each says exactly what it changes,
//! so that any other difference shows.

use std::{collections::BTreeMap, fmt};

/// What was compared.
pub struct Tally<K> {
    calls: u64,
    same: u64,
    pub kinds: BTreeMap<K, u64>,
    pub others: u64,
}

impl<K: Ord + fmt::Display> Tally<K> {
    pub fn new() -> Self {
        Tally { calls: 0, same: 0, kinds: BTreeMap::new(), others: 0 }
    }

    /// A call that should differ by these kinds, and whether it did just what they say; if not, `what` is printed.
    pub fn add(&mut self, kinds: Vec<K>, told: bool, what: impl FnOnce() -> String) {
        self.calls += 1;
        self.same += u64::from(kinds.is_empty());
        if !told {
            self.others += 1;
            println!("{}", what());
        }
        for kind in kinds {
            *self.kinds.entry(kind).or_default() += 1;
        }
    }

    /// Prints how many of what were compared and how many were as who says, then the kinds; whether there is no other
    /// difference.
    pub fn close(&self, what: &str, who: &str) -> bool {
        println!("{} {what}", self.calls);
        println!("{} as {who} says", self.same);
        for (kind, count) in &self.kinds {
            println!("{count} {kind}");
        }
        println!("{} differences of no kind", self.others);
        self.others == 0
    }
}
