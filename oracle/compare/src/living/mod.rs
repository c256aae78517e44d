//! Scripts that one peer of the source answers from the first call to the last: talks from a reset, and calls of every
//! kind between.

mod life;

use std::io;

use crate::{model::Model, output::Output, random::Random, sequence};
use life::Life;

/// The shortest of the talks but the last, and the longest; the peer lives on from each to the next.
const SHORTEST: u64 = 1_000;
const LONGEST: u64 = 12_000;

/// A script of so many calls of ops 1 to 14 and 18 and its lines by a living peer, of the mood that the seed says.
pub fn write(output: &mut Output, seed: u64, count: u64) -> io::Result<()> {
    output.model = Model::living();
    draw(output, seed, count)
}

/// The same, whoever answers.
fn draw(output: &mut Output, seed: u64, count: u64) -> io::Result<()> {
    let open = |output: &mut Output, random: &mut Random| {
        let calls = SHORTEST + random.below(LONGEST - SHORTEST);
        Ok((Life::open(output, random, seed)?, calls))
    };
    sequence::write(output, seed, count, open, Life::call)
}

#[cfg(test)]
mod tests {
    use super::*;
    use crate::{
        frame::Frame,
        met::{assert_met, frames, replies},
        model::CONNECTED,
        ops,
        records::frame,
    };
    use enet::{
        record::{place, Incoming, Outgoing, Queue, Record},
        Bench,
    };

    /// The script and its lines.
    fn written(write: impl FnOnce(&mut Output) -> io::Result<()>) -> (Vec<u8>, String) {
        let (mut script, mut lines) = (Vec::new(), Vec::new());
        write(&mut Output::new(&mut script, &mut lines)).unwrap();
        (script, String::from_utf8(lines).unwrap())
    }

    #[test]
    fn a_living_peer_answers_as_a_new_one_for_each_call() {
        // Both moods, both patiences.
        for seed in 1..=4 {
            let living = written(|output| write(output, seed, 4_000));
            let loaded = written(|output| draw(output, seed, 4_000));
            assert!(living == loaded, "seed {seed}");
            // All but those with a number that does not fit.
            assert!(living.1.lines().filter(|line| line.contains(" # ")).count() >= 3_900);
        }
    }

    #[test]
    fn every_reply_is_met() {
        let met = replies(|output| write(output, 5, 60_000));
        let replies = [
            "1 0", "2 0", "2 11", "3 0", "3 11", "4 0", "4 1", "5 0", "5 1", "5 2", "5 3", "5 5",
            "6 0", "6 2", "6 9", "7 0 0", "7 0 1", "8 0 0", "8 0 1", "8 0 2", "8 0 3", "8 0 4",
            "8 10", "9 0 1", "9 0 3", "10 0 0", "10 0 1", "10 6", "10 7", "10 8", "10 9", "11 0 0",
            "11 0 1", "11 6", "11 7", "11 8", "11 9", "12 0", "12 2", "13 0 0", "13 0 1", "14 0 0",
            "14 0 1", "14 0 2", "18 0 0", "18 0 1", "18 6", "18 7", "18 8", "18 9", "18 14",
            "13 0 2",
        ];
        assert_met(&met, 5, &replies);
    }

    /// A call on the peer of which the model does not hear.
    type Change = fn(&mut Bench, &Record) -> Record;

    const CHANGES: [(&str, Change); 5] = [
        ("a ping", |bench, record| bench.ping(record)),
        ("a state", |bench, record| bench.set_state(record, 9)),
        ("a setup", |bench, record| {
            let byte = 133;
            bench.setup(record, &Outgoing { byte, kind: 5, channel: 255, ..Outgoing::default() })
        }),
        ("a packet", |bench, record| bench.hold(record, &Incoming::default(), &[], 0)),
        ("a send step", |bench, record| bench.step(record, Queue::Outgoing, 77).1),
    ];

    /// The lines of the frames; the change, if there is one, comes before the last.
    fn answered(frames: &[Frame], change: Option<Change>) -> Vec<String> {
        let (mut model, last) = (Model::living(), frames.len() - 1);
        let mut answer = |(place, frame): (usize, &Frame)| {
            if let Some(change) = change.filter(|_| place == last) {
                change(&mut model.bench, &model.record);
            }
            ops::answer(&mut model, frame)
        };
        frames.iter().enumerate().map(&mut answer).collect()
    }

    /// Where a call finds a connected peer with a command that waits and a free slot of each kind.
    /// Ops 8 and 10 are left out: they compare with the record of the last call and stop at once.
    fn places(frames: &[Frame]) -> Vec<usize> {
        let mut model = Model::living();
        let mut fits = |frame: &Frame| {
            let record = &model.record;
            let fits = [4, 5, 6, 7, 9, 11, 12, 13, 14].contains(&frame.op)
                && record.numbers[place::STATE] == CONNECTED
                && record.outgoing.length > 0
                && record.free_outgoing() > 0
                && record.free_incoming().is_some();
            ops::answer(&mut model, frame);
            fits
        };
        (0..frames.len()).filter(|place| fits(&frames[*place])).collect()
    }

    #[test]
    fn what_is_altered_between_two_calls_shows_in_the_next_line() {
        let frames = frames(&written(|output| write(output, 1, 300)).0);
        let places = places(&frames);
        assert!(places.len() > 50, "{}", places.len());
        for at in places.into_iter().step_by(9) {
            let mut asked = frames[..=at].to_vec();
            // The script's own call, and one that is refused before the source is asked.
            for last in [frames[at].clone(), frame(12, vec![255])] {
                asked[at] = last;
                let plain = answered(&asked, None);
                for (name, change) in CHANGES {
                    let got = answered(&asked, Some(change));
                    assert_eq!(got[..at], plain[..at]);
                    assert_ne!(got[at], plain[at], "{name} before line {at}");
                }
            }
        }
    }
}
