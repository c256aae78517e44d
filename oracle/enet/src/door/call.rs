//! A call of the source on a record: loaded, called, dumped; or on a peer that lives: called and dumped.

use super::nodes::Nodes;
use crate::{record::Record, Bench};

impl Bench {
    /// What the call answers for a sound record, and the record after it; what does not count stays.
    pub(crate) unsafe fn call<T>(
        &mut self,
        record: &Record,
        call: impl FnOnce(&mut Bench, &mut Nodes) -> T,
    ) -> (T, Record) {
        self.call_over(record, record.clone(), call)
    }

    /// The same; what does not count stays as that record has it. Where the peer lives, nothing else is taken from
    /// either: the call is made on the peer as it is.
    pub(crate) unsafe fn call_over<T>(
        &mut self,
        record: &Record,
        over: Record,
        call: impl FnOnce(&mut Bench, &mut Nodes) -> T,
    ) -> (T, Record) {
        let kept = self.living.take();
        let lives = kept.is_some();
        let mut nodes = kept.unwrap_or_else(|| self.load(record));
        let answer = call(self, &mut nodes);
        let after = self.dump_over(over, &mut nodes);
        if lives {
            self.living = Some(nodes);
        } else {
            // The record's numbers and the host's settings would show in the doors that follow.
            *self = Bench::new();
        }
        (answer, after)
    }
}
