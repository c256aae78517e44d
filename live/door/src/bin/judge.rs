//! judge: one line of the table from a run's logs. 1 where something is wrong, 4 where the run did not show what it is for.
//!
//! Words: room=FOLDER name= expect=whole|sound|lost|wrong reliable= unsequenced= length= blocks= seed= needs=SUM,SUM fault=WORD shows=SUM,SUM; `judge head=1` says the columns.

use door::judge::{
    blocks_in, counted, is_lost, judge, judge_blocks, objections, Asked, Expected, Objections,
    Sent, Verdict,
};
use door::logs::{count_of, read};
use door::reports::{length_of, SHORT};
use door::words::Words;
use door::Fallible;
use std::path::PathBuf;

const KNOWN: &[&str] = &[
    "head",
    "room",
    "name",
    "expect",
    "reliable",
    "unsequenced",
    "length",
    "blocks",
    "seed",
    "needs",
    "fault",
    "shows",
];

fn row(name: &str, cells: [String; 8], rest: &str) -> String {
    let [seconds, sent, counted, back, again, over, lost, wrong] = cells;
    format!("{name:<36}{seconds:>6}{sent:>9}{counted:>9}{back:>9}{again:>7}{over:>8}{lost:>9}{wrong:>7}  {rest}")
}

fn head() -> String {
    let cells =
        ["s", "sent", "counted", "back", "again", "passed", "lost", "wrong"].map(String::from);
    row("run", cells, "")
}

/// Sums of the door's log that a run is there to show, in words.
fn shown(words: &Words, door: &[Vec<String>]) -> String {
    let names = words.text("shows", "");
    let parts = names.split(',').filter(|name| !name.is_empty());
    parts
        .map(|name| format!("{} {}", name.replace('-', " "), count_of(door, name)))
        .collect::<Vec<_>>()
        .join(", ")
}

fn pair(verdict: &Verdict) -> String {
    format!("{}+{}", verdict.reliable, verdict.unsequenced)
}

fn expected(words: &Words) -> Fallible<Expected> {
    Ok(match words.text("expect", "whole").as_str() {
        "whole" => Expected::Whole,
        "sound" => Expected::Sound,
        "lost" => Expected::Lost,
        "wrong" => Expected::Wrong,
        other => return Err(format!("expect={other} is no choice")),
    })
}

/// The end of a line: green, or what is against it.
fn say(expected: Expected, against: &Objections, faults: &[String], lost: bool) -> String {
    match expected {
        _ if !against.wrong.is_empty() => format!("RED: {}", against.wrong.join(", ")),
        _ if !against.not_shown.is_empty() => {
            format!("RED, not shown: {}", against.not_shown.join(", "))
        }
        Expected::Whole => "green".to_string(),
        Expected::Sound if lost => "green, but the link is lost".to_string(),
        Expected::Sound => "green".to_string(),
        Expected::Lost => "green: the link is lost, as it must".to_string(),
        Expected::Wrong => format!("green: found wrong, as it must: {}", faults.join(", ")),
    }
}

fn run() -> Fallible<i32> {
    let words = Words::read(std::env::args(), KNOWN)?;
    if words.number("head", 0)? == 1 {
        println!("{}", head());
        return Ok(0);
    }
    let room = PathBuf::from(words.text("room", "."));
    let (door, gateway) = (read(&room.join("door.log"))?, read(&room.join("gateway.log"))?);
    let sent = Sent {
        reliable: words.number("reliable", 500)?,
        unsequenced: words.number("unsequenced", 500)?,
    };
    let length = words.number("length", SHORT)?;
    let there = judge(&counted(&gateway, "got", |kind| length_of(kind, length))?, sent);
    let back = judge(&counted(&door, "back", |kind| length_of(kind, length))?, sent);
    let (blocks, seed) = (words.number("blocks", 0)?, words.number("seed", 1)?);
    let of_blocks =
        |log, word, of| Ok::<_, String>(judge_blocks(&blocks_in(log, word)?, of, seed, blocks));
    let ends = [
        there,
        back,
        of_blocks(&door, "block", "blocks at the door")?,
        of_blocks(&gateway, "answered", "blocks as answered")?,
    ];
    let expected = expected(&words)?;
    let asked = Asked { expected, needs: words.text("needs", ""), fault: words.text("fault", "") };
    let against = objections(&asked, &ends, [&door, &gateway]);
    let faults: Vec<String> = ends.iter().flat_map(Verdict::faults).collect();
    let verdict = say(expected, &against, &faults, is_lost(&door, &gateway));
    let seen = shown(&words, &door);
    let rest = if seen.is_empty() { verdict } else { format!("{verdict} ({seen})") };
    println!("{}", row(&words.text("name", "run"), cells(&door, &ends), &rest));
    Ok(if !against.wrong.is_empty() { 1 } else { 4 * i32::from(!against.not_shown.is_empty()) })
}

fn cells(door: &[Vec<String>], ends: &[Verdict; 4]) -> [String; 8] {
    let [there, back, ..] = ends;
    let sent = (count_of(door, "sent-reliable"), count_of(door, "sent-unsequenced"));
    let lost = |from: (u64, u64), to: &Verdict| {
        (from.0 + from.1).saturating_sub((to.reliable + to.unsequenced) as u64)
    };
    [
        format!("{:.1}", count_of(door, "milliseconds") as f64 / 1000.0),
        format!("{}+{}", sent.0, sent.1),
        pair(there),
        pair(back),
        count_of(door, "sent-again").to_string(),
        (count_of(door, "passed-over") + count_of(door, "pieces-passed-over")).to_string(),
        format!(
            "{}+{}",
            lost(sent, there),
            lost((there.reliable as u64, there.unsequenced as u64), back)
        ),
        ends.iter().map(|end| end.bytes_wrong).sum::<u64>().to_string(),
    ]
}

fn main() {
    std::process::exit(run().unwrap_or_else(|error| {
        eprintln!("judge: {error}");
        2
    }));
}
