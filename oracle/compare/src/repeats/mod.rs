//! Demand 3 as runs: a random run from a reset with inserted repeats, and the same run without them.

mod log;
mod run;

use std::io::{self, Write};

use enet::record::place;

use crate::{output::Output, random::Random, records::frame, sending::rules};
use log::APART;
use run::Run;

/// The rules of both bounds, each by its name and a few frames, with what document 01 replies.
pub const RULES: &str = include_str!("rules.txt");

/// A script of runs of so many calls with insertions, beside it the script of the same runs without them, and the
/// numbers of the inserted lines, from 1.
pub fn write(
    output: &mut Output,
    mut plain: impl Write,
    mut inserted: impl Write,
    seed: u64,
    count: u64,
) -> io::Result<()> {
    let mut random = Random::new(seed);
    let (mut left, mut number) = (count, 0_u64);
    while left > 0 {
        let calls = left.min(16 + random.below(400));
        for line in drawn(&mut random, calls).lines {
            number += 1;
            output.put(&line.frame)?;
            match line.inserted {
                Some(_) => writeln!(inserted, "{number}")?,
                None => plain.write_all(&line.frame.encode())?,
            }
        }
        left -= calls;
    }
    plain.flush()?;
    inserted.flush()
}

/// What the repository stores of it: the rules, then a run of so many calls with insertions, and the same run without.
pub fn write_stored(output: &mut Output, seed: u64, calls: u64) -> io::Result<()> {
    rules::write_text(output, RULES)?;
    let mut lines = drawn(&mut Random::new(seed), calls).lines;
    // The bytes that no arrival has written yet are not the same both times, those at the end are.
    let end = lines.split_off(lines.len() - 2);
    lines.retain(|line| line.frame.op != 16);
    lines.extend(end);
    for with in [true, false] {
        // What a reset keeps is to be the same as well.
        output.put(&frame(20, vec![place::HOST_COUNT as u32, 0]))?;
        for line in lines.iter().filter(|line| with || line.inserted.is_none()) {
            output.put(&line.frame)?;
        }
    }
    Ok(())
}

fn drawn(random: &mut Random, calls: u64) -> Run {
    let run = Run::drawn(random, calls);
    assert!(run.apart.iter().all(|windows| *windows >= APART), "{:?}", run.apart);
    run
}

#[cfg(test)]
mod tests {
    use super::run::Line;
    use super::*;
    use crate::{lines, met::frames, model::Model, ops};
    use std::collections::BTreeMap;

    #[test]
    fn repeats_come_at_every_distance_and_groups_come_again() {
        let (mut random, mut at, mut met) = (Random::new(1), BTreeMap::new(), BTreeMap::new());
        let (mut in_a_row, mut again) = (0, 0);
        for _ in 0..200 {
            let (run, mut model) = (drawn(&mut random, 300), Model::new());
            again += run.apart.len();
            let three = |three: &&[Line]| three.iter().all(|line| line.inserted.is_some());
            in_a_row += run.lines.windows(3).filter(three).count();
            for line in &run.lines {
                let answer = ops::answer(&mut model, &line.frame);
                if let (10, Some(windows)) = (line.frame.op, line.inserted) {
                    *at.entry(windows).or_insert(0) += 1;
                    let reply = answer.split(" # ").next().unwrap().to_string();
                    *met.entry(reply).or_insert(0) += 1;
                }
            }
        }
        assert!(at.len() == 33 && at.values().all(|count| *count >= 50), "{at:?}");
        assert!(again >= 100 && in_a_row >= 1_000, "{again} {in_a_row}");
        for reply in ["10 0 0", "10 6", "10 7", "10 9", "10 11"] {
            assert!(met.get(reply).is_some_and(|count| *count >= 50), "{met:?}");
        }
        // Neither stored nor refused for want of room.
        assert!(met.keys().all(|reply| reply != "10 0 1" && reply != "10 8"), "{met:?}");
    }

    /// The lines that answer the script of so many calls and the plain one, and which were inserted.
    fn written(count: u64) -> (String, String, String) {
        let (mut lines, mut plain, mut inserted) = (Vec::new(), Vec::new(), Vec::new());
        write(&mut Output::new(io::sink(), &mut lines), &mut plain, &mut inserted, 1, count)
            .unwrap();
        let text = |bytes| String::from_utf8(bytes).unwrap();
        (text(lines), answered(&plain), text(inserted))
    }

    /// The lines that answer a script.
    fn answered(script: &[u8]) -> String {
        let mut model = Model::new();
        frames(script).iter().map(|frame| ops::answer(&mut model, frame) + "\n").collect()
    }

    #[test]
    fn without_what_was_inserted_the_lines_are_those_of_the_plain_script() {
        let (lines, plain, inserted) = written(5_000);
        assert_eq!(lines::without(&inserted, &lines).unwrap(), plain);
        assert!(lines.lines().count() > plain.lines().count() + 1_500);
    }

    #[test]
    fn what_is_stored_shows_the_same_run_twice() {
        let (mut lines, seed, calls) = (Vec::new(), 15, 220);
        write_stored(&mut Output::new(io::sink(), &mut lines), seed, calls).unwrap();
        let lines = String::from_utf8(lines).unwrap();
        let lines: Vec<&str> = lines.lines().collect();
        let second = lines.iter().rposition(|line| *line == "20").unwrap();
        let first = lines[..second].iter().rposition(|line| *line == "20").unwrap();
        let (with, without) = (&lines[first..second], &lines[second..]);
        let mut rest = with.iter();
        assert!(without.iter().all(|line| rest.any(|there| there == line)));
        assert!(with.len() > without.len() + 50);
    }
}
