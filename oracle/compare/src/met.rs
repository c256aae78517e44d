//! For tests: what the lines of a script reply, and what calls do to the record.

use std::{collections::BTreeMap, io};

use enet::record::Record;

use crate::{frame::Frame, output::Output, random::Random};

/// How often each op answered what: the op, then all before the hash, cut to three words.
pub fn replies(write: impl FnOnce(&mut Output) -> io::Result<()>) -> BTreeMap<String, usize> {
    let mut lines = Vec::new();
    write(&mut Output::new(io::sink(), &mut lines)).unwrap();
    let mut met = BTreeMap::new();
    for line in String::from_utf8(lines).unwrap().lines() {
        let reply: Vec<&str> = line.split(" # ").next().unwrap().split(' ').take(3).collect();
        *met.entry(reply.join(" ")).or_insert(0) += 1;
    }
    met
}

/// The frames of a script.
pub fn frames(mut script: &[u8]) -> Vec<Frame> {
    let mut frames = Vec::new();
    while let Some((frame, rest)) = Frame::decode(script) {
        frames.push(frame);
        script = rest;
    }
    frames
}

/// That each of these is among them so often.
pub fn assert_met(met: &BTreeMap<String, usize>, least: usize, replies: &[&str]) {
    for reply in replies {
        assert!(met.get(*reply).is_some_and(|count| *count >= least), "{reply}: {met:?}");
    }
}

/// How many of the sent commands were sent before.
pub fn again(record: &Record) -> usize {
    record.sent.slots().filter(|slot| record.outgoing_slots[*slot].attempts > 1).count()
}

/// How often calls did what `seen` names by the record before, the record after and the line: so many sequences that
/// `open` starts, each of so many calls that `ask` makes.
pub fn done<Q>(
    (sequences, calls): (usize, usize),
    open: impl Fn(&mut Output, &mut Random) -> io::Result<Q>,
    ask: impl Fn(&mut Q, &mut Output, &mut Random) -> io::Result<String>,
    seen: impl Fn(&Record, &Record, &str) -> Vec<(&'static str, bool)>,
) -> BTreeMap<&'static str, usize> {
    let (mut random, mut met) = (Random::new(1), BTreeMap::new());
    let mut output = Output::new(io::sink(), io::sink());
    for _ in 0..sequences {
        let mut sequence = open(&mut output, &mut random).unwrap();
        for _ in 0..calls {
            let before = output.model.record.clone();
            let line = ask(&mut sequence, &mut output, &mut random).unwrap();
            for (name, is) in seen(&before, &output.model.record, &line) {
                *met.entry(name).or_insert(0) += usize::from(is);
            }
        }
    }
    met
}
