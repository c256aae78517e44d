//! Op 18: a piece of a block. C-11's rule in Rust, and then the source's own dispatch, with the source's own handler run
//! beside it; a living peer takes it by that handler where nothing listed differs, else by hand.

use enet::{
    record::{place, Incoming, Record},
    Piece, Room,
};

use super::{
    arrival::{byte, channel, with_payload, Came},
    reliable::{Distances, FARTHEST, LAST},
    step::add,
    Group,
};
use crate::{
    frame::Frame,
    model::{Model, Settings, DISCONNECT_LATER, PIECES, SECOND},
    piecing,
    random::Random,
};

/// The command of a piece.
pub const KIND: u8 = 8;

pub const GROUP: Group = Group { name: "18", weight: 2, frame, line };

/// A piece that came in, as a frame names it; as an arrival its number is the block's start.
pub struct Part<'a> {
    pub came: Came<'a>,
    /// The command's own number.
    pub number: u16,
    pub count: u32,
    pub piece: u32,
    pub total: u32,
    pub offset: u32,
}

/// What a piece that is not refused with 6 or 7 comes to.
#[derive(Clone, Copy, Debug, PartialEq, Eq)]
pub enum Fate {
    PassedOver,
    /// With 14 or 8.
    Refused(u32),
    /// The first of a block, in this slot, at this place of its channel's list.
    First {
        slot: usize,
        place: usize,
    },
    /// One more of the block in this slot.
    Later(usize),
}

impl<'a> Part<'a> {
    /// As the source takes it, if its place is one of the datagram's, or its end.
    pub fn piece(&self) -> Option<Piece<'a>> {
        let &Part { ref came, number, count, piece, total, offset } = self;
        let &Came { byte, channel, number: start, place, .. } = came;
        let (length, rest) = (came.length as u16, came.datagram.get(place as usize..)?);
        Some(Piece { byte, channel, number, start, length, count, piece, total, offset, rest })
    }

    /// The block of which it is the first piece, as it is held before that.
    pub fn block(&self) -> Incoming {
        let &Came { byte, channel, number, .. } = &self.came;
        let (fragments, length) = (self.count, self.total);
        Incoming { byte, channel, number, fragments, remaining: fragments, length }
    }

    /// What it comes to on a sound record that refuses it with neither 6 nor 7.
    pub fn fate(&self, record: &Record, settings: &Settings) -> Fate {
        let later = self.unfinished(record);
        if record.numbers[place::STATE] == DISCONNECT_LATER
            || (later.is_none() && !self.begins(record))
        {
            return Fate::PassedOver;
        }
        let unlike = |slot: usize| {
            let held = &record.incoming_slots[slot];
            (held.fragments, held.length) != (self.count, self.total)
        };
        if !self.fits(settings) || later.is_some_and(unlike) {
            return Fate::Refused(14);
        }
        match later {
            Some(_) if record.marked(self.piece) => Fate::PassedOver,
            Some(slot) => Fate::Later(slot),
            None => self.first(record, settings),
        }
    }

    /// The slot of the block with pieces remaining that its channel holds under its start.
    pub fn unfinished(&self, record: &Record) -> Option<usize> {
        let list = &record.channels[usize::from(self.came.channel)].list;
        list.slots().find(|slot| {
            let held = &record.incoming_slots[*slot];
            held.is_block() && held.remaining != 0 && held.number == self.came.number
        })
    }

    /// Whether its start is one that a reliable arrival's number may be.
    fn begins(&self, record: &Record) -> bool {
        let distances = Distances::of(record, &self.came);
        (1..=FARTHEST).contains(&distances.own) && !distances.held.contains(&distances.own)
    }

    /// Whether its fields are in range.
    fn fits(&self, settings: &Settings) -> bool {
        let &Part { count, piece, total, offset, .. } = self;
        (1..=PIECES).contains(&count)
            && piece < count
            && total as usize <= SECOND
            && total <= settings.packet
            && offset < total
            && self.came.length <= total - offset
    }

    fn first(&self, record: &Record, settings: &Settings) -> Fate {
        let room = record.numbers[place::WAITING] < settings.waiting && record.blocks().is_empty();
        match record.free_incoming() {
            Some(slot) if room => {
                let place = Distances::of(record, &self.came).before_the_first_farther();
                Fate::First { slot, place }
            }
            _ => Fate::Refused(8),
        }
    }

    /// The piece in this slot's block, and before that the block at this place, if it is the first; no dispatch.
    pub fn put(&self, record: &mut Record, slot: usize, place: Option<usize>) {
        if let Some(place) = place {
            record.incoming_slots[slot] = self.block();
            record.channels[usize::from(self.came.channel)].list.insert(place, slot);
            add(record, place::WAITING, self.total);
        }
        record.mark(self.piece);
        record.incoming_slots[slot].remaining -= 1;
    }

    /// Its bytes in the second store, which the first piece sets to 0 before.
    pub fn keep(&self, second: &mut [u8], first: bool) {
        if first {
            second.fill(0);
        }
        let payload = self.came.payload();
        second[self.offset as usize..][..payload.len()].copy_from_slice(payload);
    }
}

fn frame(random: &mut Random, _: u64) -> Frame {
    drawn(random, &Record::fresh(1_392))
}

fn line(model: &mut Model, frame: &Frame) -> String {
    let Some(part) = part(frame) else {
        return frame.bad();
    };
    let refused = model.both_refusal().or((part.came.byte & 15 != KIND).then_some(9));
    if let Some(number) = refused {
        return model.reply(frame, number);
    }
    if !model.bench.lives() {
        piecing::check(&model.record, &model.settings, &part, &model.second);
    }
    if let Some(number) = part.came.judged(&model.record, &model.settings) {
        return model.reply(frame, number);
    }
    match part.fate(&model.record, &model.settings) {
        Fate::PassedOver => model.replies(frame, &[0, 0]),
        Fate::Refused(number) => model.reply(frame, number),
        Fate::First { slot, place } => store(model, frame, &part, slot, Some(place)),
        Fate::Later(slot) => store(model, frame, &part, slot, None),
    }
}

/// Stores the piece, and dispatches its channel where none remains.
fn store(
    model: &mut Model,
    frame: &Frame,
    part: &Part,
    slot: usize,
    place: Option<usize>,
) -> String {
    part.keep(&mut model.second, place.is_some());
    let settings = model.settings;
    model.own(
        |bench, record| {
            let room = Room { packet: settings.packet, waiting: settings.waiting };
            let source = part.piece().filter(|_| piecing::alike(record, &settings, part));
            if let Some(piece) = source {
                return ((), bench.piece(record, &[], room, &piece).1);
            }
            if let Some(place) = place {
                let zeros = vec![0; part.total as usize];
                bench.hold(record, &part.block(), &zeros, place);
            }
            let payload = part.came.payload();
            ((), bench.put_piece(record, slot, part.piece, part.offset, payload))
        },
        |record| part.put(record, slot, place),
    );
    if model.record.incoming_slots[slot].remaining == 0 {
        model.record = model.bench.dispatch(&model.record, part.came.channel.into());
    }
    model.replies(frame, &[0, 1])
}

/// What came in, if every number fits.
pub fn part(frame: &Frame) -> Option<Part<'_>> {
    Some(Part {
        came: Came {
            byte: frame.number(0).try_into().ok()?,
            channel: frame.number(1).try_into().ok()?,
            number: frame.number(3).try_into().ok()?,
            group: 0,
            length: u16::try_from(frame.number(4)).ok()?.into(),
            place: frame.number(9),
            datagram: &frame.bytes,
        },
        number: frame.number(2).try_into().ok()?,
        count: frame.number(5),
        piece: frame.number(6),
        total: frame.number(7),
        offset: frame.number(8),
    })
}

/// A piece that suits the record: mostly of its block, if it holds an unfinished one, else mostly the first of one.
pub fn drawn(random: &mut Random, record: &Record) -> Frame {
    let mut channel = channel(random, record);
    let last = record.channels.get(channel as usize).map_or(0, |channel| channel.numbers[LAST]);
    let mut start = last.wrapping_add(distance(random));
    let (mut count, mut total) = sizes(random);
    let held = record.blocks().first().map(|slot| &record.incoming_slots[*slot]);
    if let Some(block) = held.filter(|_| !random.once_in(4)) {
        (start, count, total) = (block.number, block.fragments, block.length);
        channel = block.channel.into();
    }
    // Any piece, but mostly one that is not marked.
    let mut piece = random.below(count.clamp(1, PIECES).into()) as u32;
    for _ in 0..8 {
        if held.is_some() && record.marked(piece) {
            piece = random.below(count.clamp(1, PIECES).into()) as u32;
        }
    }
    let payload = with_payload(random, Frame::default());
    let (length, place) = (payload.number(0), payload.number(1));
    let mut offset = random.below(u64::from(total.saturating_sub(length)) + 1) as u32;
    let near = |random: &mut Random, number: u32| {
        number.wrapping_add(random.below(3) as u32).wrapping_sub(1)
    };
    match random.below(48) {
        0 => count = near(random, count),
        1 => total = near(random, total),
        2 => piece = near(random, count),
        3 => offset = near(random, total),
        4 => offset = near(random, total.saturating_sub(length)),
        5 => count = random.pick(&[0, 64, 65, 1_048_576, u32::MAX]),
        6 => total = random.pick(&[0, 32_768, 32_769, u32::MAX]),
        7 => piece = random.pick(&[63, 64, u32::MAX]),
        8 => offset = u32::MAX,
        9 => start = random.next() as u16,
        _ => {}
    }
    let number = random.up_to(65_535);
    let start = if random.once_in(64) { 65_536 } else { start.into() };
    let byte = byte(random, KIND);
    let numbers = vec![byte, channel, number, start, length, count, piece, total, offset, place];
    Frame { op: 18, numbers, bytes: payload.bytes }
}

/// Pieces and bytes of a block: mostly few of both.
fn sizes(random: &mut Random) -> (u32, u32) {
    let count = match random.below(8) {
        0 => 1 + random.up_to(PIECES - 1),
        1 => 1,
        _ => 2 + random.below(4) as u32,
    };
    let total = match random.below(8) {
        0 => 1 + random.up_to(SECOND as u32 - 1),
        1 => 1 + random.below(8) as u32,
        _ => 50 + random.below(500) as u32,
    };
    (count, total)
}

/// Mostly the next or soon after it; then around the farthest, behind, or any.
fn distance(random: &mut Random) -> u16 {
    match random.below(16) {
        0..=7 => 1,
        8..=11 => 1 + random.below(8) as u16,
        12 => FARTHEST - 1 + random.below(3) as u16,
        13 => 28_670 + random.below(4) as u16,
        14 => 0_u16.wrapping_sub(random.below(4) as u16),
        _ => random.next() as u16,
    }
}

#[cfg(test)]
mod tests {
    use super::*;
    use crate::{piecing::draw, records::sound};
    use enet::Bench;

    #[test]
    fn the_hand_on_the_sources_structs_does_as_c_11_says() {
        let (mut random, mut bench) = (Random::new(1), Bench::new());
        let (mut first, mut later) = (0, 0);
        for turn in 0..20_000 {
            let mut record = match turn % 4 {
                0 => sound::any(&mut random),
                _ => draw::holding(&mut random),
            };
            record.numbers[place::STATE] = 5;
            let asked = drawn(&mut random, &record);
            let Some(part) = part(&asked) else {
                continue;
            };
            if part.came.judged(&record, &Settings::START).is_some() {
                continue;
            }
            let (slot, place) = match part.fate(&record, &Settings::START) {
                Fate::First { slot, place } => (slot, Some(place)),
                Fate::Later(slot) => (slot, None),
                Fate::PassedOver | Fate::Refused(_) => continue,
            };
            let mut after = record.clone();
            part.put(&mut after, slot, place);
            if let Some(place) = place {
                let zeros = vec![0; part.total as usize];
                record = bench.hold(&record, &part.block(), &zeros, place);
            }
            let payload = part.came.payload();
            let got = bench.put_piece(&record, slot, part.piece, part.offset, payload);
            assert_eq!(got.row(), after.row());
            *(if place.is_some() { &mut first } else { &mut later }) += 1;
        }
        assert!(first >= 500 && later >= 500, "{first} {later}");
    }
}
