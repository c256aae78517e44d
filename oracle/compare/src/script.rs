//! A script of random frames, and beside it the lines that answer it.

use std::io;

use crate::{
    frame::Frame,
    model::Model,
    ops::{self, cell, outgoing, Group, GROUPS, MORE, SNAPSHOTS},
    output::Output,
    random::Random,
};

/// The name that asks for a last frame that is cut.
const SHORT: &str = "short";

/// The names of what takes part if none is given.
pub fn names() -> impl Iterator<Item = &'static str> {
    GROUPS.iter().map(|group| group.name).chain([SHORT])
}

/// The names of what takes part only if it is asked for.
pub fn more() -> impl Iterator<Item = &'static str> {
    MORE.iter().chain(SNAPSHOTS).map(|group| group.name)
}

/// Which groups take part, and whether the script ends inside a frame.
pub struct Choice {
    groups: Vec<&'static Group>,
    short: bool,
}

impl Choice {
    /// The groups of these names, or those that need no name.
    pub fn named(names: Option<&str>) -> Result<Self, String> {
        let Some(names) = names else {
            return Ok(Choice { groups: GROUPS.iter().collect(), short: true });
        };
        let mut choice = Choice { groups: Vec::new(), short: false };
        for name in names.split(',') {
            match ops::named(name) {
                Some(group) => choice.groups.push(group),
                None if name == SHORT => choice.short = true,
                None => return Err(format!("there are no ops {name}")),
            }
        }
        if choice.groups.is_empty() {
            return Err("a script needs at least one op".to_string());
        }
        Ok(choice)
    }
}

pub struct Plan {
    pub seed: u64,
    pub count: u64,
    pub choice: Choice,
}

impl Plan {
    pub fn write(&self, output: &mut Output) -> io::Result<()> {
        self.write_with(output, |_| Ok(()))
    }

    /// The same with more before the cut frame, which must come last.
    pub fn write_with(
        &self,
        output: &mut Output,
        more: impl FnOnce(&mut Output) -> io::Result<()>,
    ) -> io::Result<()> {
        output.model.snapshots |= self.choice.groups.iter().any(|group| ops::is_snapshots(group));
        let mut random = Random::new(self.seed);
        let mut turns = vec![0; self.choice.groups.len()];
        for _ in 0..self.count {
            let frame = self.next(&mut random, &output.model, &mut turns);
            output.put(&frame)?;
        }
        more(output)?;
        if self.choice.short {
            let whole = self.next(&mut random, &output.model, &mut turns).encode();
            // At least one byte, or it would be no frame at all; at least one too few.
            let kept = 1 + random.below(whole.len() as u64 - 1) as usize;
            output.raw(&whole[..kept], SHORT)?;
        }
        Ok(())
    }

    /// A frame of some group; each group counts its own turns, to sweep its edges.
    fn next(&self, random: &mut Random, model: &Model, turns: &mut [u64]) -> Frame {
        let chosen = self.draw(random);
        let group = self.choice.groups[chosen];
        let mut frame = (group.frame)(random, turns[chosen]);
        turns[chosen] += 1;
        if random.once_in(12) {
            miscount(&mut frame, random);
        }
        match cell::shown(&model.record, &frame) {
            Some(slot) => outgoing::set(random, slot),
            None => frame,
        }
    }

    /// The place of a group, drawn by the weights.
    fn draw(&self, random: &mut Random) -> usize {
        let groups = &self.choice.groups;
        let mut left = random.below(groups.iter().map(|group| group.weight).sum());
        groups
            .iter()
            .position(|group| match left.checked_sub(group.weight) {
                Some(rest) => {
                    left = rest;
                    false
                }
                None => true,
            })
            .expect("the draw is below the sum")
    }
}

/// Takes numbers away, which then read as 0, or adds some, which are to be ignored.
pub fn miscount(frame: &mut Frame, random: &mut Random) {
    if random.once_in(2) {
        let kept = random.below(frame.numbers.len() as u64 + 1) as usize;
        frame.numbers.truncate(kept);
    } else {
        let room = 255 - frame.numbers.len() as u64;
        let most = if random.once_in(8) { room } else { room.min(4) };
        for _ in 0..random.below(most + 1) {
            frame.numbers.push(random.number());
        }
    }
}

#[cfg(test)]
mod tests {
    use super::*;

    fn written(seed: u64, count: u64, names: Option<&str>) -> (Vec<u8>, String) {
        let (mut script, mut lines) = (Vec::new(), Vec::new());
        let plan = Plan { seed, count, choice: Choice::named(names).unwrap() };
        plan.write(&mut Output::new(&mut script, &mut lines)).unwrap();
        (script, String::from_utf8(lines).unwrap())
    }

    #[test]
    fn a_seed_gives_one_script() {
        assert_eq!(written(1, 500, None), written(1, 500, None));
        assert_ne!(written(1, 500, None), written(2, 500, None));
    }

    #[test]
    fn a_cut_frame_ends_the_lines() {
        let (_, lines) = written(1, 500, None);
        assert_eq!((lines.lines().count(), lines.lines().last()), (501, Some(SHORT)));
    }

    #[test]
    fn only_the_named_ops_are_written() {
        let (_, lines) = written(1, 500, Some("32"));
        assert_eq!(lines.lines().filter(|line| line.starts_with("32 ")).count(), 500);
        assert!(Choice::named(Some("short")).is_err());
        assert!(Choice::named(Some("30,what")).is_err());
    }
}
