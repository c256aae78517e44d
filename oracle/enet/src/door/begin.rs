//! Begin, which the port adds, by hand on the source's own structs.

use super::load::channels;
use crate::{
    record::{Channel, Record},
    Bench,
};

impl Bench {
    /// A sound record without channels after a begin of this MTU and so many channels.
    pub fn begin(&mut self, record: &Record, mtu: u32, count: usize) -> Record {
        let begin = |bench: &mut Bench| unsafe {
            let peer = bench.peer;
            (*peer).mtu = mtu;
            (*peer).channels = channels(&vec![Channel::default(); count]);
            (*peer).channel_count = count;
        };
        unsafe { self.call(record, |bench, _| begin(bench)).1 }
    }
}
