//! A piece of a block beside the source's own, `enet_protocol_handle_send_fragment`, on random records.

pub mod draw;

use std::fmt;

use enet::{
    record::{place, Record},
    Bench, Room, Verdict,
};

use crate::{
    model::{Settings, CELL, DISCONNECT_LATER, PIECES, SECOND},
    ops::{
        fragment::{Fate, Part, KIND},
        reliable::{Distances, LAST},
        send::FRAGMENTS,
    },
    queueing::{crossed, TAKEN, WINDOW},
    random::Random,
    tally::Tally,
};

/// What the source does otherwise, by its cause.
#[derive(Clone, Copy, Debug, PartialEq, Eq, PartialOrd, Ord)]
pub enum Kind {
    Empty,
    Long,
    Window,
    Below,
    Early,
    Held,
    Byte,
    Later,
    Discarded,
    Again,
    Order,
    Pieces,
    Bytes,
    Second,
    Full,
    Ready,
}

impl fmt::Display for Kind {
    fn fmt(&self, out: &mut fmt::Formatter) -> fmt::Result {
        out.write_str(match self {
            Kind::Empty => "a length of 0: refused there, stored or passed over here",
            Kind::Long => "longer than a cell: stored or passed over there, 7 here",
            Kind::Window => "past the source's windows: passed over there, stored, 14 or 8 here",
            Kind::Below => "a total below the count: refused there, stored or passed over here",
            Kind::Early => "fields out of range: refused there, passed over for its start here",
            Kind::Held => "its start held by a packet or another whole block: refused there, passed over here",
            Kind::Byte => "a block whose byte names another command: refused there, taken on here",
            Kind::Later => "state 6: a block is taken on there, passed over here",
            Kind::Discarded => "state 6 or at distance 0: refused there, passed over here",
            Kind::Again => "held before a nearer one: a second block or refused there, passed over or taken on here",
            Kind::Order => "out of order: after the last that is nearer there, before the first farther here",
            Kind::Pieces => "above 64 pieces: stored or passed over there, 14 here",
            Kind::Bytes => "above 32,768 bytes: stored or passed over there, 14 here",
            Kind::Second => "a second block: stored there, 8 here",
            Kind::Full => "no slot: stored there, 8 here",
            Kind::Ready => "what was ready before a first piece: dispatched there, held here",
        })
    }
}

/// What a piece comes to, the record after it and the block's bytes; a record of a thirteenth packet, of two blocks or of a
/// larger one is none that can be shown.
#[derive(Debug, PartialEq, Eq)]
struct End {
    verdict: Verdict,
    shown: Option<(Vec<u32>, Vec<u8>)>,
}

impl End {
    /// Nothing changed.
    fn same(verdict: Verdict, record: &Record) -> Self {
        End { verdict, shown: Some((record.row(), Vec::new())) }
    }
}

/// What the source should do with a piece.
enum Told {
    PassedOver,
    Refused,
    First { place: usize },
    Later { slot: usize },
}

/// A piece on a sound record, whose block has the first bytes of the second store.
struct Case<'a> {
    record: &'a Record,
    settings: Settings,
    part: &'a Part<'a>,
    second: &'a [u8],
}

/// Whether nothing listed here can tell the source's own handler from C-11's rule.
pub fn alike(record: &Record, settings: &Settings, part: &Part) -> bool {
    tell(record, settings, part).1.is_empty()
}

/// Stops where the source's own handler does with a piece on a sound record what neither C-11 nor a kind says.
pub fn check(record: &Record, settings: &Settings, part: &Part, second: &[u8]) {
    // The source has no such place.
    if part.piece().is_some() {
        let (case, mut tally) = (Case { record, settings: *settings, part, second }, Tally::new());
        case.compare(&mut Bench::new(), &mut tally);
        assert_eq!(tally.others, 0, "a difference of no kind");
    }
}

/// Compares so many pieces; whether each difference is of a kind.
pub fn compare(seed: u64, count: u64) -> bool {
    let (mut random, mut bench) = (Random::new(seed), Bench::new());
    let (mut tally, mut stored) = (Tally::new(), 0);
    let second = random.bytes(SECOND);
    for _ in 0..count {
        let record = draw::holding(&mut random);
        let datagram = random.bytes(5_000);
        let (settings, part) = draw::piece(&mut random, &record, &datagram);
        let case = Case { record: &record, settings, part: &part, second: &second };
        stored += u64::from(case.compare(&mut bench, &mut tally) == Verdict::Delivered);
    }
    tally.close(&format!("pieces, {stored} of them stored by the source"), "C-11")
}

impl Case<'_> {
    /// Adds the piece to the tally, and answers what the source made of it.
    fn compare(&self, bench: &mut Bench, tally: &mut Tally<Kind>) -> Verdict {
        let (ours, (kind, told)) = (self.ours(bench), self.told(bench));
        let got = self.theirs(bench, told.shown.is_some());
        let same = got == told && (ours == got) == kind.is_none();
        tally.add(kind.into_iter().collect(), same, || {
            let &Part { ref came, count, piece, total, offset, .. } = self.part;
            format!(
                "start {} of {count} pieces and {total} bytes, piece {piece} at {offset}, {} from \
                 {}, on {:?}\ngives {got:?}, told {told:?}, ours {ours:?}",
                came.number, came.length, came.place, self.record
            )
        });
        got.verdict
    }

    /// C-11's rule.
    fn ours(&self, bench: &mut Bench) -> End {
        if self.part.came.judged(self.record, &self.settings).is_some() {
            return End::same(Verdict::Refused, self.record);
        }
        match self.part.fate(self.record, &self.settings) {
            Fate::PassedOver => End::same(Verdict::PassedOver, self.record),
            Fate::Refused(_) => End::same(Verdict::Refused, self.record),
            Fate::First { slot, place } => self.stored(bench, slot, Some(place), false),
            Fate::Later(slot) => self.stored(bench, slot, None, false),
        }
    }

    /// What the source did, with the record after it if there is to be one.
    fn theirs(&self, bench: &mut Bench, shown: bool) -> End {
        let room = Room { packet: self.settings.packet, waiting: self.settings.waiting };
        let piece = self.part.piece().expect("the draw has no other");
        if !shown {
            let verdict = bench.judge_piece(self.record, room, &piece);
            return End { verdict, shown: None };
        }
        let (pieced, after) = bench.piece(self.record, self.second, room, &piece);
        End { verdict: pieced.verdict, shown: Some((after.row(), pieced.block)) }
    }

    /// What the source should do, and by what kind that differs from C-11's rule.
    fn told(&self, bench: &mut Bench) -> (Option<Kind>, End) {
        let (told, causes) = tell(self.record, &self.settings, self.part);
        let end = match told {
            Told::PassedOver => End::same(Verdict::PassedOver, self.record),
            Told::Refused => End::same(Verdict::Refused, self.record),
            Told::Later { slot } => self.stored(bench, slot, None, false),
            Told::First { place } => match self.record.free_incoming() {
                Some(slot) if self.shows() => self.stored(bench, slot, Some(place), true),
                _ => End { verdict: Verdict::Delivered, shown: None },
            },
        };
        // The first cause counts, where it comes to anything.
        let kind = causes.first().copied().filter(|_| end != self.ours(bench));
        (kind, end)
    }

    /// Whether a record can show the block that begins here.
    fn shows(&self) -> bool {
        self.record.blocks().is_empty()
            && self.part.count <= PIECES
            && self.part.total as usize <= SECOND
    }

    /// The piece stored, and its channel dispatched where none remains, or anyway.
    fn stored(&self, bench: &mut Bench, slot: usize, place: Option<usize>, anyway: bool) -> End {
        let (mut after, mut second) = (self.record.clone(), self.second.to_vec());
        self.part.put(&mut after, slot, place);
        self.part.keep(&mut second, place.is_some());
        second.truncate(self.part.total as usize);
        if anyway || after.incoming_slots[slot].remaining == 0 {
            after = bench.dispatch(&after, self.part.came.channel.into());
        }
        End { verdict: Verdict::Delivered, shown: Some((after.row(), second)) }
    }
}

/// What the source does with a piece on a sound record, test by test, and what on the way C-11's rule does otherwise.
fn tell(record: &Record, settings: &Settings, part: &Part) -> (Told, Vec<Kind>) {
    let mut causes = Vec::new();
    let told = source(record, settings, part, &mut causes);
    (told, causes)
}

fn source(record: &Record, settings: &Settings, part: &Part, causes: &mut Vec<Kind>) -> Told {
    let came = &part.came;
    // 6 and 7 without a cell's end.
    let within = crate::ops::arrival::Came { length: came.length.min(CELL as u32), ..*came };
    if came.length > settings.packet || !came.fits() || within.judged(record, settings).is_some() {
        return Told::Refused;
    }
    if came.length == 0 {
        causes.push(Kind::Empty);
        return Told::Refused;
    }
    if came.length as usize > CELL {
        causes.push(Kind::Long);
    }
    let distances = Distances::of(record, came);
    let last = record.channels[usize::from(came.channel)].numbers[LAST];
    if distances.own >= TAKEN * WINDOW - last % WINDOW {
        causes.push(Kind::Window);
        return Told::PassedOver;
    }
    if part.total < part.count {
        causes.push(Kind::Below);
        return Told::Refused;
    }
    if out_of_range(settings, part) {
        causes.push(Kind::Early);
        return Told::Refused;
    }
    if part.count > PIECES {
        causes.push(Kind::Pieces);
    }
    if part.total as usize > SECOND {
        causes.push(Kind::Bytes);
    }
    // From the end to the first that is no farther.
    let place = distances.held.iter().rposition(|held| *held <= distances.own);
    match place.filter(|place| distances.held[*place] == distances.own) {
        Some(place) => found(record, part, place, causes),
        None => {
            first(record, settings, part, &distances, place.map_or(0, |place| place + 1), causes)
        }
    }
}

/// The source's tests of the fields, which need no record.
fn out_of_range(settings: &Settings, part: &Part) -> bool {
    let &Part { count, piece, total, offset, .. } = part;
    count > FRAGMENTS
        || piece >= count
        || total > settings.packet
        || offset >= total
        || part.came.length > total - offset
}

/// Under its start something is held at this place of the list.
fn found(record: &Record, part: &Part, place: usize, causes: &mut Vec<Kind>) -> Told {
    let list = &record.channels[usize::from(part.came.channel)].list;
    let slot = usize::from(list.items()[place]);
    let held = &record.incoming_slots[slot];
    let unfinished = part.unfinished(record) == Some(slot);
    if held.byte & 15 != KIND {
        causes.push(if unfinished { Kind::Byte } else { Kind::Held });
        return Told::Refused;
    }
    if (held.length, held.fragments) != (part.total, part.count) {
        causes.push(Kind::Held);
        return Told::Refused;
    }
    if record.marked(part.piece) {
        return Told::PassedOver;
    }
    if record.numbers[place::STATE] == DISCONNECT_LATER {
        causes.push(Kind::Later);
    }
    Told::Later { slot }
}

/// Nothing is found there, and it would begin a block at this place.
fn first(
    record: &Record,
    settings: &Settings,
    part: &Part,
    distances: &Distances,
    place: usize,
    causes: &mut Vec<Kind>,
) -> Told {
    if record.numbers[place::STATE] == DISCONNECT_LATER || distances.own == 0 {
        causes.push(Kind::Discarded);
        return Told::Refused;
    }
    if distances.held.contains(&distances.own) {
        causes.push(Kind::Again);
    }
    if record.numbers[place::WAITING] >= settings.waiting {
        return Told::Refused;
    }
    if !record.blocks().is_empty() {
        causes.push(Kind::Second);
    }
    if record.free_incoming().is_none() {
        causes.push(Kind::Full);
    }
    if crossed(distances) {
        causes.push(Kind::Order);
    }
    if place > 0 && part.count > 1 && ready(record, part) {
        causes.push(Kind::Ready);
    }
    Told::First { place }
}

/// Whether the head of its channel's list would be dispatched.
fn ready(record: &Record, part: &Part) -> bool {
    let channel = &record.channels[usize::from(part.came.channel)];
    let head = channel.list.slots().next().map(|slot| &record.incoming_slots[slot]);
    head.is_some_and(|head| {
        head.remaining == 0 && head.number == channel.numbers[LAST].wrapping_add(1)
    })
}

#[cfg(test)]
mod tests {
    use super::*;
    use crate::{
        fragments::cut::Block,
        model::CONNECTED,
        ops::{
            arrival::Came,
            fragment,
            reliable::{self, Fate::Stored},
        },
        records::{block, sound},
    };
    use enet::record::Incoming;
    use Verdict::{Delivered, PassedOver, Refused};

    #[test]
    fn the_source_takes_100000_pieces_as_c_11_and_the_kinds_say() {
        assert!(compare(1, 100_000));
    }

    /// A record of one channel with last number 0, which holds these.
    fn with(numbers: &[u16]) -> Record {
        let mut record = Record::fresh(1_392);
        record.numbers[place::STATE] = CONNECTED;
        record.numbers[place::CHANNEL_COUNT] = 1;
        for (slot, number) in numbers.iter().enumerate() {
            record.incoming_slots[slot] =
                Incoming { byte: 136, number: *number, ..Incoming::default() };
            record.channels[0].list.push(slot);
        }
        record
    }

    /// The same, of which the first is a block of two pieces and two bytes, with these pieces.
    fn with_block(numbers: &[u16], marked: u64) -> Record {
        let mut record = with(numbers);
        block::put(&mut record, 0, 2, 2, marked);
        sound::settle(&mut record);
        record
    }

    /// A piece by start, count, piece, total and length, at the block's end.
    type Asked = (u16, u32, u32, u32, u32);

    /// The kind of a piece, what C-11 makes of it, and what the source.
    fn both(record: &Record, asked: Asked) -> (Option<Kind>, End, End) {
        let (number, count, piece, total, length) = asked;
        let (datagram, second) = (vec![7; length as usize], vec![9; SECOND]);
        let (byte, channel, group, place) = (136, 0, 0, 0);
        let came = Came { byte, channel, number, group, length, place, datagram: &datagram };
        let offset = total.saturating_sub(length.max(1));
        let part = Part { came, number, count, piece, total, offset };
        let (case, mut bench) = (
            Case { record, settings: Settings::START, part: &part, second: &second },
            Bench::new(),
        );
        let (kind, told) = case.told(&mut bench);
        let theirs = case.theirs(&mut bench, told.shown.is_some());
        assert_eq!(theirs, told);
        (kind, case.ours(&mut bench), theirs)
    }

    fn verdicts(record: &Record, asked: Asked) -> (Option<Kind>, Verdict, Verdict) {
        let (kind, ours, theirs) = both(record, asked);
        (kind, ours.verdict, theirs.verdict)
    }

    #[test]
    fn pieces_of_a_block_are_stored_alike() {
        assert_eq!(verdicts(&with(&[]), (1, 2, 1, 2, 1)), (None, Delivered, Delivered));
        let record = with_block(&[1], 0b10);
        assert_eq!(verdicts(&record, (1, 2, 0, 2, 1)), (None, Delivered, Delivered));
        assert_eq!(verdicts(&record, (1, 2, 1, 2, 1)), (None, PassedOver, PassedOver));
        assert_eq!(verdicts(&record, (1, 3, 0, 3, 1)), (None, Refused, Refused));
    }

    #[test]
    fn the_source_refuses_a_length_of_0_and_a_total_below_the_count() {
        let record = with(&[]);
        assert_eq!(verdicts(&record, (1, 1, 0, 1, 0)), (Some(Kind::Empty), Delivered, Refused));
        assert_eq!(verdicts(&record, (1, 2, 0, 1, 1)), (Some(Kind::Below), Delivered, Refused));
        assert_eq!(verdicts(&record, (1, 2, 0, 2, 1)), (None, Delivered, Delivered));
    }

    #[test]
    fn the_source_has_no_cells_no_slots_and_larger_blocks() {
        let record = with(&[]);
        assert_eq!(verdicts(&record, (1, 1, 0, 4_096, 4_096)), (None, Delivered, Delivered));
        let long = (1, 1, 0, 4_097, 4_097);
        assert_eq!(verdicts(&record, long), (Some(Kind::Long), Refused, Delivered));
        assert_eq!(verdicts(&record, (1, 64, 0, 64, 1)), (None, Delivered, Delivered));
        assert_eq!(verdicts(&record, (1, 65, 0, 65, 1)), (Some(Kind::Pieces), Refused, Delivered));
        assert_eq!(verdicts(&record, (1, 2, 0, 32_768, 1)), (None, Delivered, Delivered));
        let many = (1, 2, 0, 32_769, 1);
        assert_eq!(verdicts(&record, many), (Some(Kind::Bytes), Refused, Delivered));
        let full: Vec<u16> = (2..14).collect();
        assert_eq!(verdicts(&with(&full), (1, 2, 0, 2, 1)), (Some(Kind::Full), Refused, Delivered));
    }

    #[test]
    fn the_source_puts_many_blocks_together_at_once() {
        let second = (5, 2, 0, 2, 1);
        let told = (Some(Kind::Second), Refused, Delivered);
        assert_eq!(verdicts(&with_block(&[1], 0b10), second), told);
    }

    #[test]
    fn the_sources_windows_end_at_28672_after_0() {
        let record = with(&[]);
        assert_eq!(verdicts(&record, (28_671, 1, 0, 1, 1)), (None, Delivered, Delivered));
        let past = (28_672, 1, 0, 1, 1);
        assert_eq!(verdicts(&record, past), (Some(Kind::Window), Delivered, PassedOver));
        assert_eq!(verdicts(&record, (32_768, 1, 0, 1, 1)), (None, PassedOver, PassedOver));
        // Of a block that is held behind the last number.
        let mut behind = with_block(&[1], 0b10);
        behind.channels[0].numbers[LAST] = 1;
        assert_eq!(verdicts(&behind, (1, 2, 0, 2, 1)), (None, Delivered, Delivered));
        behind.channels[0].numbers[LAST] = 2;
        let told = (Some(Kind::Window), Delivered, PassedOver);
        assert_eq!(verdicts(&behind, (1, 2, 0, 2, 1)), told);
    }

    #[test]
    fn what_is_passed_over_here_is_mostly_refused_there() {
        let asked = (0, 2, 0, 2, 1);
        let told = |kind| (Some(kind), PassedOver, Refused);
        assert_eq!(verdicts(&with(&[]), asked), told(Kind::Discarded));
        assert_eq!(verdicts(&with(&[]), (0, 2, 2, 2, 1)), told(Kind::Early));
        assert_eq!(verdicts(&with(&[2]), (2, 2, 0, 2, 1)), told(Kind::Held));
        let whole = with_block(&[2], 0b11);
        assert_eq!(verdicts(&whole, (2, 2, 0, 2, 1)), (None, PassedOver, PassedOver));
        assert_eq!(verdicts(&whole, (2, 3, 0, 3, 1)), told(Kind::Held));
    }

    #[test]
    fn in_state_6_the_source_goes_on_with_a_block_and_refuses_another() {
        let mut record = with_block(&[1], 0b10);
        record.numbers[place::STATE] = DISCONNECT_LATER;
        let told = (Some(Kind::Later), PassedOver, Delivered);
        assert_eq!(verdicts(&record, (1, 2, 0, 2, 1)), told);
        let told = (Some(Kind::Discarded), PassedOver, Refused);
        assert_eq!(verdicts(&record, (5, 2, 0, 2, 1)), told);
    }

    #[test]
    fn the_source_asks_for_the_byte_of_a_block() {
        let mut record = with_block(&[1], 0b10);
        record.incoming_slots[0].byte = 134;
        let told = (Some(Kind::Byte), Delivered, Refused);
        assert_eq!(verdicts(&record, (1, 2, 0, 2, 1)), told);
    }

    #[test]
    fn out_of_order_the_source_searches_from_the_end() {
        let told = (Some(Kind::Again), PassedOver, Delivered);
        assert_eq!(verdicts(&with(&[2, 1]), (2, 2, 0, 2, 1)), told);
        let told = (Some(Kind::Again), Delivered, Delivered);
        assert_eq!(verdicts(&with_block(&[2, 1], 0b10), (2, 2, 0, 2, 1)), told);
        let (kind, ours, theirs) = both(&with(&[3, 1]), (2, 2, 0, 2, 1));
        assert_eq!((kind, ours.verdict, theirs.verdict), (Some(Kind::Order), Delivered, Delivered));
        assert_ne!(ours, theirs);
    }

    #[test]
    fn a_first_piece_dispatches_what_was_ready_there() {
        let (kind, ours, theirs) = both(&with(&[1]), (2, 2, 0, 2, 1));
        // The dispatched list's length, after the numbers and the three outgoing lists.
        let dispatched = |end: &End| end.shown.as_ref().unwrap().0[place::FLAGS + 3];
        assert_eq!((kind, dispatched(&ours), dispatched(&theirs)), (Some(Kind::Ready), 0, 1));
        assert!(both(&with(&[1]), (2, 1, 0, 1, 1)).0.is_none());
    }

    /// A sender that gives each number once, or any; the kinds that its pieces and packets meet from a reset.
    fn from_a_reset(once: bool) -> Vec<Kind> {
        let (mut random, mut bench, mut tally) = (Random::new(1), Bench::new(), Tally::new());
        for _ in 0..400 {
            let (mut record, mut second, mut next) = (with(&[]), vec![0; SECOND], 1);
            let mut way = Vec::new();
            for _ in 0..60 {
                if way.is_empty() || random.once_in(6) {
                    let start = if once { next } else { 1 + random.below(12) as u16 };
                    let total = 1 + random.below(12) as u32;
                    let block = Block { channel: 0, start, total, cut: 1 + random.below(4) as u32 };
                    next += block.count() as u16;
                    way.extend(block.pieces(&mut random));
                }
                let asked = way.remove(random.below(way.len() as u64) as usize);
                let part = fragment::part(&asked).expect("every number fits");
                let settings = Settings::START;
                let case = Case { record: &record, settings, part: &part, second: &second };
                case.compare(&mut bench, &mut tally);
                let stored = match part.fate(&record, &settings) {
                    Fate::First { slot, place } => Some((slot, Some(place))),
                    Fate::Later(slot) => Some((slot, None)),
                    Fate::PassedOver | Fate::Refused(_) => None,
                };
                let mut after = record.clone();
                if let Some((slot, place)) = stored {
                    part.put(&mut after, slot, place);
                    part.keep(&mut second, place.is_some());
                    if after.incoming_slots[slot].remaining == 0 {
                        after = bench.dispatch(&after, 0);
                    }
                }
                // What was not stored comes again, and now and then what was.
                if random.once_in(if stored.is_some() { 6 } else { 2 }) {
                    way.push(asked);
                }
                // A whole packet, of a number of its own or of any.
                let number = if once { next } else { 1 + random.below(12) as u16 };
                let came = Came {
                    byte: 134,
                    channel: 0,
                    number,
                    group: 0,
                    length: 0,
                    place: 0,
                    datagram: &[],
                };
                if random.once_in(4)
                    && matches!(reliable::store(&mut after, 9, &came), Stored { .. })
                {
                    next += 1;
                    after = bench.dispatch(&after, 0);
                }
                record = if random.once_in(3) { bench.received(&after).1 } else { after };
            }
        }
        assert_eq!(tally.others, 0);
        tally.kinds.keys().copied().collect()
    }

    #[test]
    fn from_a_reset_lists_get_out_of_order_only_by_a_number_that_comes_twice() {
        use Kind::{Again, Discarded, Held, Order, Second};
        assert_eq!(from_a_reset(true), [Discarded, Second]);
        assert_eq!(from_a_reset(false), [Held, Discarded, Again, Order, Second]);
    }
}
