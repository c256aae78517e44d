//! Acknowledgement and timeout check with all that the source does when it notifies or disconnects, beside document
//! 01's, where the answer stands for that and the record stays as it is just before.

use std::fmt;

use enet::{
    record::{place, Record},
    Acknowledged, Acknowledgement, Bench, GivenUp,
};

use crate::{
    model::{Settings, CONNECTED},
    ops::{
        acknowledgement,
        timeouts::{self, ATTEMPTS},
    },
    random::Random,
    records::sound,
    tally::Tally,
};

/// The source's types of events.
const NO_EVENT: u32 = 0;
const DISCONNECT: u32 = 2;

/// The states in which the source gives up without an event.
const SILENT: [u32; 3] = [0, 2, 3];

/// What the source does otherwise, by its cause.
#[derive(Clone, Copy, Debug, PartialEq, Eq, PartialOrd, Ord)]
enum Kind {
    Shift,
    Silent,
    GivenUp,
    Connect,
    Disconnect,
    DisconnectNow,
}

impl fmt::Display for Kind {
    fn fmt(&self, out: &mut fmt::Formatter) -> fmt::Result {
        out.write_str(match self {
            Kind::Shift => "past 32 attempts the shift wraps: goes on there, given up here",
            Kind::Silent => "given up in states 0, 2 and 3: reset without an event there",
            Kind::GivenUp => "given up in another state: reset with the event there",
            Kind::Connect => "acknowledged in state 2: the event, and state 5 there",
            Kind::Disconnect => "acknowledged in state 7: the event, and reset there",
            Kind::DisconnectNow => {
                "acknowledged in state 6: queues freed, command 132 queued, state 7 there"
            }
        })
    }
}

/// Compares so many acknowledgements and as many checks; whether each difference is of a kind.
pub fn compare(seed: u64, count: u64) -> bool {
    let (mut random, mut bench) = (Random::new(seed), Bench::new());
    let mut tally = Tally::new();
    for _ in 0..count {
        let record = drawn(&mut random);
        let clock = timeouts::drawn(&mut random, &record).number(0);
        let (kinds, same) = check(&mut bench, &record, clock);
        tally.add(kinds, same, || format!("check at {clock}: {record:?}"));
        let asked = acknowledgement::drawn(&mut random, &record);
        if let Some(came) = acknowledgement::came(&asked) {
            let (kind, same) = acknowledge(&mut bench, &record, came);
            tally.add(kind.into_iter().collect(), same, || format!("{came:?}: {record:?}"));
        }
    }
    tally.close("acknowledgements and timeout checks", "document 01")
}

/// By what kinds the source's check differs, and whether it does just what they say.
fn check(bench: &mut Bench, record: &Record, clock: u32) -> (Vec<Kind>, bool) {
    let mut kinds = Vec::new();
    let ours = timeouts::check(bench, record, clock);
    let (given_up, mut after) = wrapped(bench, record, clock);
    if (given_up, after.row()) != (ours.0, ours.1.row()) {
        kinds.push(Kind::Shift);
    }
    let mut told = GivenUp { returned: given_up.into(), event: NO_EVENT };
    if given_up {
        after = bench.reset(Settings::START.mtu, &after);
        if SILENT.contains(&record.numbers[place::STATE]) {
            kinds.push(Kind::Silent);
        } else {
            kinds.push(Kind::GivenUp);
            told.event = DISCONNECT;
        }
    }
    let (got, left) = bench.give_up(record, clock);
    (kinds, (got, left.row()) == (told, after.row()))
}

/// The check by a shift that counts its attempts modulo 32, as the source's does where nothing stops it.
fn wrapped(bench: &mut Bench, record: &Record, clock: u32) -> (bool, Record) {
    let mut small = record.clone();
    for slot in record.sent.slots() {
        let attempts = &mut small.outgoing_slots[slot].attempts;
        *attempts = (*attempts - 1) % ATTEMPTS + 1;
    }
    let (given_up, mut after) = timeouts::check(bench, &small, clock);
    for slot in record.sent.slots() {
        after.outgoing_slots[slot].attempts = record.outgoing_slots[slot].attempts;
    }
    (given_up, after)
}

/// By what kind the source's acknowledgement differs, and whether it does just what that says.
fn acknowledge(bench: &mut Bench, record: &Record, came: Acknowledgement) -> (Option<Kind>, bool) {
    let (answer, mut after) = bench.acknowledge(record, came);
    let kind = match answer {
        Acknowledged::Connect => {
            after.numbers[place::STATE] = CONNECTED;
            Some(Kind::Connect)
        }
        Acknowledged::Disconnect => {
            after = bench.reset(Settings::START.mtu, &after);
            Some(Kind::Disconnect)
        }
        Acknowledged::DisconnectNow => {
            after = bench.disconnect(&after, record.numbers[place::EVENT_DATA]);
            Some(Kind::DisconnectNow)
        }
        Acknowledged::PassedOver | Acknowledged::Done | Acknowledged::Refused => None,
    };
    let (got, left) = bench.acknowledge_whole(record, came);
    (kind, (got, left.row()) == (answer, after.row()))
}

/// A sound record in which more is given up and more answers come than in any.
fn drawn(random: &mut Random) -> Record {
    let mut record = match random.below(3) {
        0 => sound::light(random, &Record::fresh(1_392)),
        _ => sound::any(random),
    };
    if random.once_in(2) {
        record.numbers[place::STATE] = random.pick(&[2, 6, 7]);
    }
    if random.once_in(2) {
        record.numbers[place::TIMEOUT_LIMIT] = random.pick(&[1, 2, 32, 1 << 31, u32::MAX]);
        record.numbers[place::TIMEOUT_MAXIMUM] = u32::MAX;
        record.numbers[place::TIMEOUT_MINIMUM] = random.pick(&[0, 500]);
    }
    for slot in record.sent.slots().collect::<Vec<_>>() {
        let command = &mut record.outgoing_slots[slot];
        if random.once_in(2) {
            command.attempts = 30 + random.below(10) as u16;
        }
        if random.once_in(4) {
            (command.kind, command.fields) = (4, vec![7]);
            command.byte = 132;
        }
    }
    record
}

#[cfg(test)]
mod tests {
    use super::*;
    use enet::record::Outgoing;

    #[test]
    fn the_source_does_in_20000_calls_what_document_01_and_the_kinds_say() {
        assert!(compare(1, 10_000));
    }

    /// A new record in this state that sent one ping at 1,000, so often.
    fn sent(state: u32, attempts: u16) -> Record {
        let mut record = Record::fresh(1_392);
        record.numbers[place::STATE] = state;
        record.outgoing_slots[0] = Outgoing {
            reliable: 1,
            sent_time: 1_000,
            timeout: 500,
            attempts,
            byte: 133,
            channel: 255,
            kind: 5,
            ..Outgoing::default()
        };
        record.sent.push(0);
        record
    }

    #[test]
    fn attempts_33_with_limit_32_goes_back_there_and_is_given_up_here() {
        let (record, mut bench) = (sent(CONNECTED, 33), Bench::new());
        assert_eq!(record.numbers[place::TIMEOUT_LIMIT], 32);
        // One attempt fewer, and both give up; 5,000 is the minimum.
        for (attempts, kinds) in [(32, vec![Kind::GivenUp]), (33, vec![Kind::Shift])] {
            assert_eq!(check(&mut bench, &sent(CONNECTED, attempts), 6_000), (kinds, true));
        }
        assert_eq!(
            timeouts::check(&mut bench, &record, 6_000),
            (true, {
                let mut after = record.clone();
                after.numbers[place::EARLIEST_TIMEOUT] = 1_000;
                after
            })
        );
        let (got, after) = bench.give_up(&record, 6_000);
        assert_eq!(got, GivenUp { returned: 0, event: NO_EVENT });
        assert_eq!((after.sent.length, after.outgoing.items()), (0, &[0][..]));
        assert_eq!(after.outgoing_slots[0].timeout, 1_000);
    }

    #[test]
    fn given_up_in_states_0_2_and_3_the_source_resets_without_an_event() {
        let mut bench = Bench::new();
        for state in 0..=10 {
            let record = sent(state, 1);
            let (given_up, after) = timeouts::check(&mut bench, &record, 31_000);
            assert_eq!((given_up, after.numbers[place::STATE]), (true, state));
            assert_eq!((after.sent.length, after.numbers[place::EARLIEST_TIMEOUT]), (1, 1_000));
            let (got, after) = bench.give_up(&record, 31_000);
            let event = if SILENT.contains(&state) { NO_EVENT } else { DISCONNECT };
            assert_eq!(got, GivenUp { returned: 1, event }, "state {state}");
            assert_eq!(after.row(), Record::fresh(1_392).row());
        }
    }
}
