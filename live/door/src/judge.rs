//! The judge of a run: from what an end counted, whether reports or blocks are missing, doubled, out of order or changed.

use crate::blocks::{self, Block};
use crate::logs::{count_of, sum_of};
use crate::reports::{Kind, Name};
use crate::Fallible;
use std::collections::HashMap;

/// A report as an end counted it, in the order of counting.
#[derive(Debug, Clone, PartialEq)]
pub struct Got {
    pub report: Name,
    pub bytes_wrong: u64,
}

/// What one end counted. Of unsequenced reports some may be lost and any order is right, so those columns are of reliable ones alone.
#[derive(Debug, Default, Clone, PartialEq)]
pub struct Verdict {
    pub reliable: usize,
    pub unsequenced: usize,
    pub missing: usize,
    pub out_of_order: usize,
    pub doubled: usize,
    pub unknown: usize,
    pub bytes_wrong: u64,
    /// Of what, where not of reports.
    pub of: &'static str,
}

/// How many of each kind were sent.
#[derive(Clone, Copy)]
pub struct Sent {
    pub reliable: u32,
    pub unsequenced: u32,
}

pub fn judge(got: &[Got], sent: Sent) -> Verdict {
    let mut verdict = Verdict::default();
    let mut times: HashMap<Name, usize> = HashMap::new();
    let mut next = 0;
    for Got { report, bytes_wrong } in got {
        verdict.bytes_wrong += bytes_wrong;
        let limit = if report.kind == Kind::Reliable { sent.reliable } else { sent.unsequenced };
        if report.index >= limit {
            verdict.unknown += 1;
            continue;
        }
        let seen = times.entry(*report).or_insert(0);
        *seen += 1;
        if *seen > 1 {
            verdict.doubled += 1;
        } else if report.kind == Kind::Unsequenced {
            verdict.unsequenced += 1;
        } else {
            verdict.reliable += 1;
            verdict.out_of_order += usize::from(report.index < next);
            next = next.max(report.index + 1);
        }
    }
    verdict.missing = sent.reliable as usize - verdict.reliable;
    verdict
}

impl Verdict {
    /// Nothing that is there is wrong; reports may be missing, as where a link was lost.
    pub fn is_sound(&self) -> bool {
        self.out_of_order == 0 && self.doubled == 0 && self.unknown == 0 && self.bytes_wrong == 0
    }

    pub fn is_whole(&self) -> bool {
        self.is_sound() && self.missing == 0
    }

    /// What is wrong, in words.
    pub fn faults(&self) -> Vec<String> {
        let named = [
            (self.missing as u64, "missing"),
            (self.out_of_order as u64, "out of order"),
            (self.doubled as u64, "doubled"),
            (self.unknown as u64, "unknown"),
            (self.bytes_wrong, "bytes wrong"),
        ];
        let of = if self.of.is_empty() { String::new() } else { format!(" ({})", self.of) };
        named
            .iter()
            .filter(|fault| fault.0 > 0)
            .map(|fault| format!("{} {}{of}", fault.0, fault.1))
            .collect()
    }
}

/// The reports in a log's lines `TIME got|back KIND INDEX LENGTH BYTES-WRONG [HOW CHANNEL]`. The gateway says how a report came, and one
/// that did not come as its kind says counts as a byte wrong, as does another length than the one sent.
pub fn counted(
    lines: &[Vec<String>],
    word: &str,
    length: impl Fn(Kind) -> usize,
) -> Fallible<Vec<Got>> {
    let mut got = Vec::new();
    for line in lines.iter().filter(|line| line.len() >= 6 && line[1] == word) {
        let report: Name = format!("{}{}", line[2], line[3]).parse()?;
        let wrong = |text: &String| format!("{text} is no number in a log");
        let other_length =
            line[4].parse::<usize>().map_err(|_| wrong(&line[4]))? != length(report.kind);
        let how = if report.kind == Kind::Reliable { "reliable" } else { "unsequenced" };
        let other_way =
            line.len() == 8 && (line[6] != how || line[7] != report.kind.channel().to_string());
        let bytes: u64 = line[5].parse().map_err(|_| wrong(&line[5]))?;
        got.push(Got {
            report,
            bytes_wrong: bytes + u64::from(other_length) + u64::from(other_way),
        });
    }
    Ok(got)
}

/// A block as an end said that it came, and how many of its bytes the door found wrong.
pub type Came = (Block, u64);

/// The blocks in a log's lines `TIME block|answered NUMBER CHANNEL LENGTH HASH [BYTES-WRONG]`: what the door received, and what the gateway was
/// told of it.
pub fn blocks_in(lines: &[Vec<String>], word: &str) -> Fallible<Vec<Came>> {
    let mut came = Vec::new();
    for line in lines.iter().filter(|line| line.len() >= 6 && line[1] == word) {
        let number = |text: &String| {
            text.parse::<u32>().map_err(|_| format!("{text} is no number in a log"))
        };
        let (channel, length, hash) =
            (number(&line[3])?, number(&line[4])? as usize, number(&line[5])?);
        let wrong = line.get(6).map_or(Ok(0), number)?;
        came.push((Block { channel, length, hash }, u64::from(wrong)));
    }
    Ok(came)
}

/// Every block that was sent must be there once, with its bytes and in its channel's order. The judge makes them anew from the seed; what is none
/// of them is unknown. `of` names the end.
pub fn judge_blocks(came: &[Came], of: &'static str, seed: u32, sent: u32) -> Verdict {
    let made: Vec<Block> = (0..sent).map(|index| blocks::made(seed, index)).collect();
    let mut sum = Verdict { of, ..Verdict::default() };
    let mut next = [0, 0];
    let mut times = vec![0; made.len()];
    for (block, bytes_wrong) in came {
        sum.bytes_wrong += bytes_wrong;
        let Some(index) = made.iter().position(|made| made == block) else {
            sum.unknown += 1;
            continue;
        };
        times[index] += 1;
        if times[index] > 1 {
            sum.doubled += 1;
            continue;
        }
        let next = &mut next[block.channel as usize];
        sum.reliable += 1;
        sum.out_of_order += usize::from(index < *next);
        *next = index.max(*next);
    }
    sum.missing = made.len() - sum.reliable;
    sum
}

/// What a run is expected to be.
#[derive(Clone, Copy, PartialEq)]
pub enum Expected {
    /// Every reliable report and block at both ends once, in order and unchanged; no unsequenced one twice; and the door left by itself.
    Whole,
    /// Nothing that was counted is wrong; whether the link holds is left open.
    Sound,
    /// One end gives the other up; nothing that was counted before is wrong.
    Lost,
    /// The judge finds something wrong: a run that must fail.
    Wrong,
}

/// What is asked of a run: `needs` names sums of the door's log that must not be 0, `fault` what must be found wrong in one that must fail.
pub struct Asked {
    pub expected: Expected,
    pub needs: String,
    pub fault: String,
}

/// What is wrong with a run, in words, and what it was to show and did not.
#[derive(Debug, Default, PartialEq)]
pub struct Objections {
    pub wrong: Vec<String>,
    pub not_shown: Vec<String>,
}

pub fn is_lost(door: &[Vec<String>], gateway: &[Vec<String>]) -> bool {
    [door, gateway].iter().any(|log| sum_of(log, "end").as_deref() == Some("given-up"))
}

/// Nothing where all is as asked.
pub fn objections(asked: &Asked, ends: &[Verdict], logs: [&[Vec<String>]; 2]) -> Objections {
    let faults: Vec<String> = ends.iter().flat_map(|end| end.faults()).collect();
    let sound = ends.iter().all(|end| end.is_sound());
    let needs = asked.needs.split(',').filter(|name| !name.is_empty());
    let unmet =
        needs.filter(|name| count_of(logs[0], name) == 0).map(|name| format!("{name} is 0"));
    let mut said = Objections { wrong: vec![], not_shown: unmet.collect() };
    let end = sum_of(logs[0], "end").unwrap_or_default();
    let found = faults.iter().any(|fault| fault.contains(&asked.fault));
    match asked.expected {
        Expected::Whole => {
            said.wrong = faults;
            if end != "left" {
                said.wrong.push(format!("the door ended as '{end}'"));
            }
        }
        Expected::Sound | Expected::Lost if !sound => said.wrong = faults,
        Expected::Lost if !is_lost(logs[0], logs[1]) => {
            said.not_shown.push("the link was not lost".to_string())
        }
        Expected::Wrong if !found => said.not_shown.push("it was not found".to_string()),
        _ => {}
    }
    // a stock sender gives the link nothing to refuse but for want of a slot
    match count_of(logs[0], "refused-other") {
        0 => {}
        count => said.wrong.push(format!("{count} arrivals refused, not with 8")),
    }
    said
}

#[cfg(test)]
mod tests {
    use super::*;

    const SENT: Sent = Sent { reliable: 3, unsequenced: 2 };

    fn verdict(names: &str) -> Verdict {
        let got = |name: &str| Got { report: name.parse().unwrap(), bytes_wrong: 0 };
        judge(&names.split(' ').map(got).collect::<Vec<_>>(), SENT)
    }

    #[test]
    fn whole_with_an_unsequenced_one_lost_and_others_in_any_order() {
        assert!(verdict("U1 R0 R1 U0 R2").is_whole());
        assert!(verdict("R0 R1 R2").is_whole());
    }

    #[test]
    fn missing_doubled_swapped_unknown() {
        assert_eq!(verdict("R0 R2").faults(), ["1 missing"]);
        assert_eq!(verdict("R0 R1 R1 R2").faults(), ["1 doubled"]);
        assert_eq!(verdict("R0 R2 R1").faults(), ["1 out of order"]);
        assert_eq!(verdict("R0 R1 R2 U1 U1").faults(), ["1 doubled"]);
        assert_eq!(verdict("R0 R1 R2 R3").faults(), ["1 unknown"]);
    }

    #[test]
    fn changed_bytes_lengths_and_ways_are_read_off_a_log() {
        let lines = |text: &str| vec![text.split(' ').map(String::from).collect::<Vec<_>>()];
        let wrong = |text: &str| counted(&lines(text), "got", |_| 48).unwrap()[0].bytes_wrong;
        assert_eq!(wrong("1 got R 2 48 0 reliable 0"), 0);
        assert_eq!(wrong("1 got R 2 48 7 reliable 0"), 7);
        assert_eq!(wrong("1 got R 2 47 0 reliable 0"), 1);
        assert_eq!(wrong("1 got R 2 48 0 unsequenced 0"), 1);
        assert_eq!(wrong("1 got U 2 48 0 unsequenced 0"), 1);
    }

    #[test]
    fn expectations_can_fail() {
        let log = |end: &str| {
            vec![
                vec!["end".to_string(), end.to_string()],
                vec!["kept".to_string(), "3".to_string()],
            ]
        };
        let (whole, doubled, missing) =
            (verdict("R0 R1 R2"), verdict("R0 R1 R1 R2"), verdict("R0 R1"));
        let say = |expected, end: &Verdict, door: &str, needs: &str| {
            let asked = Asked { expected, needs: needs.to_string(), fault: "doubled".to_string() };
            let ends = [end.clone(), whole.clone()];
            let said = objections(&asked, &ends, [&log(door), &log("left")]);
            (said.wrong.is_empty(), said.not_shown.is_empty())
        };
        assert_eq!(say(Expected::Whole, &whole, "left", "kept"), (true, true));
        assert_eq!(say(Expected::Whole, &whole, "left", "kept,pings"), (true, false));
        assert_eq!(say(Expected::Whole, &doubled, "left", ""), (false, true));
        assert_eq!(say(Expected::Whole, &missing, "left", ""), (false, true));
        assert_eq!(say(Expected::Whole, &whole, "late", ""), (false, true));
        assert_eq!(say(Expected::Sound, &missing, "given-up", ""), (true, true));
        assert_eq!(say(Expected::Sound, &doubled, "left", ""), (false, true));
        assert_eq!(say(Expected::Lost, &missing, "given-up", ""), (true, true));
        assert_eq!(say(Expected::Lost, &doubled, "given-up", ""), (false, true));
        assert_eq!(say(Expected::Lost, &whole, "left", ""), (true, false));
        assert_eq!(say(Expected::Wrong, &doubled, "left", ""), (true, true));
        assert_eq!(say(Expected::Wrong, &whole, "left", ""), (true, false));
        assert_eq!(say(Expected::Wrong, &missing, "left", ""), (true, false));
        let refused = vec![
            vec!["end".to_string(), "left".to_string()],
            vec!["refused-other".to_string(), "1".to_string()],
        ];
        let asked = Asked { expected: Expected::Whole, needs: String::new(), fault: String::new() };
        assert_eq!(objections(&asked, &[whole], [&refused, &refused]).wrong.len(), 1);
    }

    fn of_blocks(indices: &[u32]) -> Verdict {
        let came: Vec<Came> = indices.iter().map(|index| (blocks::made(7, *index), 0)).collect();
        judge_blocks(&came, "blocks", 7, 4)
    }

    #[test]
    fn blocks_keep_their_channels_order() {
        assert!(of_blocks(&[0, 1, 2, 3]).is_whole());
        assert!(of_blocks(&[1, 3, 0, 2]).is_whole());
        assert_eq!(of_blocks(&[0, 3, 2, 1]).faults(), ["1 out of order (blocks)"]);
        assert_eq!(of_blocks(&[0, 1, 3]).faults(), ["1 missing (blocks)"]);
        assert_eq!(of_blocks(&[0, 1, 1, 2, 3]).faults(), ["1 doubled (blocks)"]);
        assert_eq!(of_blocks(&[0, 1, 2, 3, 5]).faults(), ["1 unknown (blocks)"]);
    }

    #[test]
    fn blocks_are_read_off_a_log_and_compared_with_the_seeds() {
        let lines = |text: &str| vec![text.split(' ').map(String::from).collect::<Vec<_>>()];
        let Block { channel, length, hash } = blocks::made(7, 1);
        let line = format!("1 answered 0 {channel} {length} {hash}");
        let came = blocks_in(&lines(&line), "answered").unwrap();
        assert_eq!(judge_blocks(&came, "blocks", 7, 2).faults(), ["1 missing (blocks)"]);
        assert_eq!(judge_blocks(&came, "blocks", 8, 2).unknown, 1);
        let line = format!("1 block 0 {channel} {length} {hash} 2");
        let came = blocks_in(&lines(&line), "block").unwrap();
        assert_eq!(judge_blocks(&came, "blocks", 7, 2).bytes_wrong, 2);
        assert!(blocks_in(&lines("1 block 0 0 x 3"), "block").is_err());
    }
}
