//! Set state, which the port adds, by `enet_protocol_change_state`.

use crate::{opened, record::Record, Bench};

impl Bench {
    /// A sound record in this state.
    pub fn set_state(&mut self, record: &Record, state: u32) -> Record {
        let change = |bench: &mut Bench| unsafe {
            opened::change_state(bench.host, bench.peer, state);
        };
        unsafe { self.call(record, |bench, _| change(bench)).1 }
    }
}
