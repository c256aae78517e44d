//! The reliable arrival beside the source's own, `enet_protocol_handle_send_reliable`, on random records.

pub mod draw;

use std::fmt;

use enet::{
    record::{place, Record},
    Bench, Room, Verdict,
};

use crate::{
    model::{Settings, CELL, DISCONNECT_LATER},
    ops::{
        arrival::Came,
        reliable::{put, store, Distances, Fate, FARTHEST, LAST},
    },
    random::Random,
    tally::Tally,
};

/// The source's windows of reliable numbers: the numbers of one, and how many it takes, its own included.
pub const WINDOW: u16 = 4_096;
pub const TAKEN: u16 = 7;

/// What the source does otherwise, by its cause.
#[derive(Clone, Copy, Debug, PartialEq, Eq, PartialOrd, Ord)]
enum Kind {
    Window,
    Again,
    Order,
    Long,
    Full,
}

impl fmt::Display for Kind {
    fn fmt(&self, out: &mut fmt::Formatter) -> fmt::Result {
        out.write_str(match self {
            Kind::Window => "past the source's windows: passed over there, stored or 8 here",
            Kind::Again => {
                "held before a nearer one: stored again or refused there, passed over here"
            }
            Kind::Order => {
                "out of order: after the last that is nearer there, before the first farther here"
            }
            Kind::Long => "longer than a cell: passed over or stored there, 7 here",
            Kind::Full => "no slot: stored there, 8 here",
        })
    }
}

/// What an arrival comes to, and the record after it; a thirteenth packet is one that no record can show.
#[derive(PartialEq, Eq)]
struct End {
    verdict: Verdict,
    row: Option<Vec<u32>>,
}

impl End {
    fn new(verdict: Verdict, record: &Record) -> Self {
        End { verdict, row: Some(record.row()) }
    }
}

/// What the source should do with an arrival, and by what kind that differs from document 01.
struct Told {
    kind: Option<Kind>,
    end: End,
}

/// An arrival on a sound record.
struct Case<'a> {
    record: &'a Record,
    settings: Settings,
    came: Came<'a>,
}

/// Compares so many arrivals; whether each difference is of a kind.
pub fn compare(seed: u64, count: u64) -> bool {
    let (mut random, mut bench) = (Random::new(seed), Bench::new());
    let (mut tally, mut stored) = (Tally::new(), 0);
    for _ in 0..count {
        let record = draw::holding(&mut random);
        let datagram = random.bytes(5_000);
        let (settings, came) = draw::arrival(&mut random, &record, &datagram);
        let case = Case { record: &record, settings, came };
        stored += u64::from(case.compare(&mut bench, &mut tally) == Verdict::Delivered);
    }
    tally.close(&format!("arrivals, {stored} of them stored by the source"), "document 01")
}

impl Case<'_> {
    /// Adds the arrival to the tally, and answers what the source made of it.
    fn compare(&self, bench: &mut Bench, tally: &mut Tally<Kind>) -> Verdict {
        let Told { kind, end: told } = self.tell(bench);
        let (ours, got) = (self.ours(bench), self.theirs(bench, told.row.is_some()));
        // A kind is a difference, and there is none without a kind.
        let same = got == told && (ours == got) == kind.is_none();
        tally.add(kind.into_iter().collect(), same, || {
            let Came { number, length, place, .. } = self.came;
            format!(
                "number {number}, {length} from {place}, on {:?}\ngives {:?} {:?}, told {:?} {:?}",
                self.record, got.verdict, got.row, told.verdict, told.row
            )
        });
        got.verdict
    }

    /// Document 01's arrival.
    fn ours(&self, bench: &mut Bench) -> End {
        let mut after = self.record.clone();
        if self.came.judged(self.record, &self.settings).is_some() {
            return End::new(Verdict::Refused, &after);
        }
        match store(&mut after, self.settings.waiting, &self.came) {
            Fate::PassedOver => End::new(Verdict::PassedOver, &after),
            Fate::Refused => End::new(Verdict::Refused, &after),
            Fate::Stored { .. } => {
                End::new(Verdict::Delivered, &bench.dispatch(&after, self.came.channel.into()))
            }
        }
    }

    /// What the source did, with the record after it if there is to be one.
    fn theirs(&self, bench: &mut Bench, shown: bool) -> End {
        let room = Room { packet: self.settings.packet, waiting: self.settings.waiting };
        let arrival = self.came.arrival().expect("the draw has no other");
        let (arrived, row) = if shown {
            let (arrived, after) = bench.arrive(self.record, room, &arrival);
            (arrived, Some(after.row()))
        } else {
            (bench.judge(self.record, room, &arrival), None)
        };
        if arrived.verdict == Verdict::Delivered {
            assert_eq!(arrived.bytes, self.came.payload());
        }
        End { verdict: arrived.verdict, row }
    }

    /// What the source should do: document 01's arrival, and what is of a kind.
    fn tell(&self, bench: &mut Bench) -> Told {
        if self.refused() {
            return Told { kind: None, end: End::new(Verdict::Refused, self.record) };
        }
        let distances = Distances::of(self.record, &self.came);
        match self.place(&distances) {
            None => self.pass_over(&distances),
            Some(place) => self.take(bench, &distances, place),
        }
    }

    /// Whether both refuse with 6 or 7, which is all but a length above a cell's.
    fn refused(&self) -> bool {
        let length = self.came.length.min(CELL as u32);
        let within = Came { length, ..self.came };
        self.came.length > self.settings.packet
            || !self.came.fits()
            || within.judged(self.record, &self.settings).is_some()
    }

    fn long(&self) -> bool {
        self.came.length as usize > CELL
    }

    /// The source's place, if it does not pass over.
    fn place(&self, distances: &Distances) -> Option<usize> {
        if self.later() || distances.own == 0 || self.past_windows(distances) {
            return None;
        }
        from_the_end(distances)
    }

    fn later(&self) -> bool {
        self.record.numbers[place::STATE] == DISCONNECT_LATER
    }

    /// Whether the source's windows leave the number out.
    fn past_windows(&self, distances: &Distances) -> bool {
        let last = self.record.channels[usize::from(self.came.channel)].numbers[LAST];
        distances.own >= TAKEN * WINDOW - last % WINDOW
    }

    /// What the source should do where it passes over. No kind asks what document 01's rule made of it here.
    fn pass_over(&self, distances: &Distances) -> Told {
        let window = self.past_windows(distances)
            && distances.own <= FARTHEST
            && !distances.held.contains(&distances.own)
            && !self.later();
        let kind = match self.long() {
            true => Some(Kind::Long),
            false => window.then_some(Kind::Window),
        };
        Told { kind, end: End::new(Verdict::PassedOver, self.record) }
    }

    /// What it should do where it does not; a number that is held then stands before a nearer one.
    fn take(&self, bench: &mut Bench, distances: &Distances, place: usize) -> Told {
        let again = distances.held.contains(&distances.own);
        if self.record.numbers[place::WAITING] >= self.settings.waiting {
            let kind = (again && !self.long()).then_some(Kind::Again);
            return Told { kind, end: End::new(Verdict::Refused, self.record) };
        }
        let kind = if self.long() {
            Some(Kind::Long)
        } else if again {
            Some(Kind::Again)
        } else if self.record.free_incoming().is_none() {
            Some(Kind::Full)
        } else {
            crossed(distances).then_some(Kind::Order)
        };
        Told { kind, end: self.stored(bench, place) }
    }

    /// The packet stored at this place and dispatched, which no record can show if no slot is free.
    fn stored(&self, bench: &mut Bench, place: usize) -> End {
        let Some(slot) = self.record.free_incoming() else {
            return End { verdict: Verdict::Delivered, row: None };
        };
        let mut after = self.record.clone();
        put(&mut after, &self.came, place, slot);
        End::new(Verdict::Delivered, &bench.dispatch(&after, self.came.channel.into()))
    }
}

/// Whether one that is farther stands before one that is nearer.
pub fn crossed(distances: &Distances) -> bool {
    let farther = |held: &u16| *held > distances.own;
    distances.held.iter().skip_while(|held| !farther(held)).any(|held| !farther(held))
}

/// The source's place: after the last held one that is no farther, unless that is the number itself.
fn from_the_end(distances: &Distances) -> Option<usize> {
    match distances.held.iter().rposition(|held| *held <= distances.own) {
        Some(place) if distances.held[place] == distances.own => None,
        Some(place) => Some(place + 1),
        None => Some(0),
    }
}

#[cfg(test)]
mod tests {
    use super::*;
    use crate::model::CONNECTED;
    use enet::record::Incoming;

    #[test]
    fn the_source_takes_100000_arrivals_as_document_01_and_the_kinds_say() {
        assert!(compare(1, 100_000));
    }

    /// A record of one channel with last number 0, which holds these.
    fn with(numbers: &[u16]) -> Record {
        let mut record = Record::fresh(1_392);
        record.numbers[place::STATE] = CONNECTED;
        record.numbers[place::CHANNEL_COUNT] = 1;
        for (slot, number) in numbers.iter().enumerate() {
            record.incoming_slots[slot] =
                Incoming { byte: 134, number: *number, ..Incoming::default() };
            record.channels[0].list.push(slot);
        }
        record
    }

    /// The kinds of an arrival of so many bytes, what document 01 makes of it, and what the source.
    fn both(record: &Record, number: u16, length: u32) -> (Option<Kind>, End, End) {
        let (datagram, mut bench) = (vec![7; length as usize], Bench::new());
        let (byte, channel, group, place) = (134, 0, 0, 0);
        let came = Came { byte, channel, number, group, length, place, datagram: &datagram };
        let case = Case { record, settings: Settings::START, came };
        let Told { kind, end: told } = case.tell(&mut bench);
        let theirs = case.theirs(&mut bench, told.row.is_some());
        assert!(theirs == told);
        (kind, case.ours(&mut bench), theirs)
    }

    fn verdicts(record: &Record, number: u16, length: u32) -> (Option<Kind>, Verdict, Verdict) {
        let (kind, ours, theirs) = both(record, number, length);
        (kind, ours.verdict, theirs.verdict)
    }

    use Verdict::{Delivered, PassedOver, Refused};

    #[test]
    fn the_sources_windows_end_at_28672_after_0() {
        let record = with(&[]);
        assert_eq!(verdicts(&record, 28_671, 1), (None, Delivered, Delivered));
        assert_eq!(verdicts(&record, 28_672, 1), (Some(Kind::Window), Delivered, PassedOver));
        assert_eq!(verdicts(&record, 32_767, 1), (Some(Kind::Window), Delivered, PassedOver));
        assert_eq!(verdicts(&record, 32_768, 1), (None, PassedOver, PassedOver));
    }

    #[test]
    fn the_sources_windows_end_24577_after_4095() {
        let mut record = with(&[]);
        record.channels[0].numbers[LAST] = 4_095;
        assert_eq!(verdicts(&record, 28_671, 1), (None, Delivered, Delivered));
        assert_eq!(verdicts(&record, 28_672, 1), (Some(Kind::Window), Delivered, PassedOver));
    }

    #[test]
    fn a_number_held_before_a_nearer_one_is_stored_again_there() {
        assert_eq!(verdicts(&with(&[2, 1]), 2, 1), (Some(Kind::Again), PassedOver, Delivered));
        assert_eq!(verdicts(&with(&[1, 2]), 2, 1), (None, PassedOver, PassedOver));
    }

    #[test]
    fn out_of_order_the_source_searches_from_the_end() {
        let (kind, ours, theirs) = both(&with(&[3, 1]), 2, 1);
        assert_eq!((kind, ours.verdict, theirs.verdict), (Some(Kind::Order), Delivered, Delivered));
        assert!(ours.row != theirs.row);
        let (kind, ours, theirs) = both(&with(&[1, 3]), 2, 1);
        assert!(kind.is_none() && ours == theirs);
    }

    #[test]
    fn out_of_order_the_next_one_is_dispatched_here_and_stuck_there() {
        let (kind, ours, theirs) = both(&with(&[2, 0]), 1, 1);
        // The dispatched list's length, after the numbers and the three outgoing lists.
        let dispatched = |end: &End| end.row.as_ref().unwrap()[place::FLAGS + 3];
        assert_eq!((kind, dispatched(&ours), dispatched(&theirs)), (Some(Kind::Order), 2, 0));
    }

    #[test]
    fn the_source_has_no_cells_and_no_slots() {
        assert_eq!(verdicts(&with(&[]), 1, 4_096), (None, Delivered, Delivered));
        assert_eq!(verdicts(&with(&[]), 1, 4_097), (Some(Kind::Long), Refused, Delivered));
        let full: Vec<u16> = (2..14).collect();
        assert_eq!(verdicts(&with(&full), 1, 1), (Some(Kind::Full), Refused, Delivered));
    }

    #[test]
    fn from_a_reset_no_list_gets_out_of_order() {
        let (mut random, mut bench, mut tally) = (Random::new(1), Bench::new(), Tally::new());
        for _ in 0..200 {
            let mut record = with(&[]);
            record.channels[0].numbers[LAST] = random.up_to(65_535) as u16;
            for _ in 0..100 {
                let datagram = random.bytes(5_000);
                let (settings, came) = draw::arrival(&mut random, &record, &datagram);
                Case { record: &record, settings, came }.compare(&mut bench, &mut tally);
                let mut after = record.clone();
                let (settings, came) = draw::arrival(&mut random, &record, &datagram);
                if came.judged(&record, &settings).is_none()
                    && store(&mut after, settings.waiting, &came) != Fate::PassedOver
                {
                    record = bench.dispatch(&after, 0);
                }
                if random.once_in(2) {
                    record = bench.received(&record).1;
                }
            }
        }
        let kinds: Vec<Kind> = tally.kinds.keys().copied().collect();
        assert_eq!((kinds, tally.others), (vec![Kind::Window, Kind::Long, Kind::Full], 0));
    }
}
