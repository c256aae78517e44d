//! Op 20: setting a number of the record.

use enet::record::{place, MARKS, WORDS};

use super::Group;
use crate::{
    build::{MARKS_FROM, WORDS_FROM},
    frame::Frame,
    model::Model,
    random::Random,
};

const WORDS_TO: usize = WORDS_FROM + WORDS;
const MARKS_TO: usize = MARKS_FROM + MARKS;

pub const GROUP: Group = Group { name: "20", weight: 4, frame, line };

fn frame(random: &mut Random, turn: u64) -> Frame {
    let place = match turn % 4 {
        0 => random.pick(&[place::ALL, 63, MARKS_TO, 256, u32::MAX as usize]),
        1 => WORDS_FROM + random.below((WORDS + MARKS) as u64) as usize,
        _ => random.below(place::ALL as u64) as usize,
    };
    let value = random.about(place::limit(place));
    Frame { op: 20, numbers: vec![place as u32, value], ..Frame::default() }
}

fn line(model: &mut Model, frame: &Frame) -> String {
    let (place, value) = (frame.number(0) as usize, frame.number(1));
    if place < place::ALL && value <= place::limit(place) {
        model.record.numbers[place] = value;
    } else if (WORDS_FROM..WORDS_TO).contains(&place) {
        model.record.words[place - WORDS_FROM] = value;
    } else if (MARKS_FROM..MARKS_TO).contains(&place) {
        model.record.marks[place - MARKS_FROM] = value;
    } else {
        return frame.bad();
    }
    frame.line(&[])
}
