//! One run told from its three logs: each sending of a report, what the network did with it, and what the gateway counted.

use crate::reports::Name;
use crate::{logs, Fallible};
use std::collections::{BTreeMap, HashMap};
use std::path::Path;

/// A report as it left the door once. Times are milliseconds since the first report left.
pub struct Sending {
    pub report: Name,
    pub again: bool,
    pub left: f64,
    /// What the network did: lost, once, held, twice.
    pub fate: String,
    pub arrivals: Vec<Arrival>,
}

pub struct Arrival {
    pub at: f64,
    /// A repeat: another copy of this report was there before.
    pub passed_over: bool,
}

pub struct Story {
    pub sendings: Vec<Sending>,
    /// Each report that the gateway counted, and when.
    pub counted: Vec<(Name, f64)>,
}

/// A line's time, in milliseconds since another.
fn time(line: &[String], start: u64) -> Fallible<f64> {
    let at: u64 = line[0].parse().map_err(|_| format!("{} is no time", line[0]))?;
    Ok((at as f64 - start as f64) / 1000.0)
}

fn with_word<'a>(lines: &'a [Vec<String>], word: &'a str) -> impl Iterator<Item = &'a Vec<String>> {
    lines.iter().filter(move |line| line.len() > 2 && line[1] == word)
}

fn name(kind: &str, index: &str) -> Fallible<Name> {
    format!("{kind}{index}").parse()
}

/// By the number of a datagram on its way out: what became of it, and when its copies were there.
fn fates(faults: &[Vec<String>], start: u64) -> Fallible<HashMap<String, (String, Vec<f64>)>> {
    let mut fates: HashMap<String, (String, Vec<f64>)> = HashMap::new();
    for line in with_word(faults, "out") {
        let entry = fates.entry(line[2].clone()).or_default();
        match line[3].as_str() {
            "there" => entry.1.push(time(line, start)?),
            fate => entry.0 = fate.to_string(),
        }
    }
    Ok(fates)
}

/// Of all copies of a report the first one there counts.
fn mark_repeats(sendings: &mut [Sending]) {
    let mut first: BTreeMap<Name, f64> = BTreeMap::new();
    for sending in sendings.iter() {
        for arrival in &sending.arrivals {
            let at = first.entry(sending.report).or_insert(arrival.at);
            *at = at.min(arrival.at);
        }
    }
    for sending in sendings.iter_mut() {
        for arrival in &mut sending.arrivals {
            arrival.passed_over = first.get(&sending.report).is_some_and(|at| arrival.at > *at);
        }
    }
}

pub fn read(room: &Path) -> Fallible<Story> {
    let [door, faults, gateway] =
        ["door.log", "faults.log", "gateway.log"].map(|name| logs::read(&room.join(name)));
    tell(&door?, &faults?, &gateway?)
}

pub fn tell(
    door: &[Vec<String>],
    faults: &[Vec<String>],
    gateway: &[Vec<String>],
) -> Fallible<Story> {
    let first = with_word(door, "sent").next().ok_or("the door sent no report")?;
    let start: u64 = first[0].parse().map_err(|_| "the door's log has no time")?;
    let fates = fates(faults, start)?;
    let mut sendings = Vec::new();
    for line in with_word(door, "sent") {
        let (fate, arrivals) = fates
            .get(&line[4])
            .cloned()
            .ok_or(format!("the network knows no datagram {}", line[4]))?;
        let arrivals = arrivals.iter().map(|at| Arrival { at: *at, passed_over: false }).collect();
        sendings.push(Sending {
            report: name(&line[2], &line[3])?,
            again: line[5] != "1",
            left: time(line, start)?,
            fate,
            arrivals,
        });
    }
    mark_repeats(&mut sendings);
    let counted =
        with_word(gateway, "got").map(|line| Ok((name(&line[2], &line[3])?, time(line, start)?)));
    Ok(Story { sendings, counted: counted.collect::<Fallible<_>>()? })
}

#[cfg(test)]
mod tests {
    use super::*;

    fn lines(text: &str) -> Vec<Vec<String>> {
        text.lines().map(|line| line.trim().split(' ').map(String::from).collect()).collect()
    }

    #[test]
    fn a_doubled_and_a_lost_report() {
        let door = lines("1000 sent R 0 4 1\n3000 sent U 0 5 1\n9000 sent R 0 6 2");
        let faults = lines("1000 out 4 twice\n2000 out 4 there\n8000 out 4 there\n3000 out 5 lost\n9000 out 6 once\n9500 out 6 there");
        let story = tell(&door, &faults, &lines("2100 got R 0 48 0 reliable 0")).unwrap();
        let passed = |sending: &Sending| {
            sending.arrivals.iter().map(|arrival| arrival.passed_over).collect::<Vec<_>>()
        };
        assert_eq!(
            story.sendings.iter().map(passed).collect::<Vec<_>>(),
            [vec![false, true], vec![], vec![true]]
        );
        assert_eq!((story.sendings[2].again, story.sendings[2].left), (true, 8.0));
        assert_eq!(story.counted, [("R0".parse().unwrap(), 1.1)]);
    }
}
