//! The rules of ops 4 to 7, each by its name and a few frames, with what document 01 replies.

use std::io;

use crate::{
    frame::Frame,
    ops,
    output::Output,
    records::{settings, PACKET},
};

/// A line `# NAME` begins a rule. A frame is its op and its numbers, after `:` its bytes; after `=` stands what the reply
/// begins with, and before `x` how often the frame comes. `new MTU CHANNELS` is a connected record under the first settings.
const TEXT: &str = include_str!("rules.txt");

struct Rule {
    name: &'static str,
    steps: Vec<Step>,
}

struct Step {
    frame: Frame,
    /// The reply's first words, if the rule says them.
    reply: Option<&'static str>,
}

impl Step {
    /// Whether the line is what the rule says; one that says nothing is still no `bad`.
    fn holds(&self, line: &str) -> bool {
        let op = self.frame.op;
        match self.reply {
            // The space keeps a reply of 1 apart from 13.
            Some(reply) => format!("{line} ").starts_with(&format!("{op} {reply} ")),
            None => !line.ends_with("bad"),
        }
    }
}

/// A script of all rules; the oracle must reply as each says.
pub fn write(output: &mut Output) -> io::Result<()> {
    write_text(output, TEXT)
}

/// The same of another text.
pub fn write_text(output: &mut Output, text: &'static str) -> io::Result<()> {
    for rule in rules(text) {
        for step in rule.steps {
            let line = ops::answer(&mut output.model, &step.frame);
            assert!(step.holds(&line), "{}: {:?} gives {line}", rule.name, step.frame.numbers);
            output.raw(&step.frame.encode(), &line)?;
        }
    }
    Ok(())
}

fn rules(text: &'static str) -> Vec<Rule> {
    let mut rules: Vec<Rule> = Vec::new();
    for line in text.lines().filter(|line| !line.is_empty()) {
        match line.strip_prefix("# ") {
            Some(name) => rules.push(Rule { name, steps: Vec::new() }),
            None => rules.last_mut().expect("a name comes first").steps.extend(steps(line)),
        }
    }
    rules
}

/// The frames of a line.
fn steps(line: &'static str) -> Vec<Step> {
    let (call, reply) = match line.split_once(" = ") {
        Some((call, reply)) => (call, Some(reply)),
        None => (line, None),
    };
    if let Some(numbers) = call.strip_prefix("new ") {
        return begun(numbers);
    }
    let (times, call) = match call.split_once(" x ") {
        Some((times, call)) => (times.parse().expect("a number"), call),
        None => (1, call),
    };
    (0..times).map(|_| Step { frame: frame(call), reply }).collect()
}

/// The first settings, then reset, begin and state 5; the host count, which a reset keeps, is 0.
fn begun(numbers: &str) -> Vec<Step> {
    let done = |frame| Step { frame, reply: Some("0") };
    let set = |frame| Step { frame, reply: None };
    vec![
        set(settings(1_392, PACKET)),
        done(frame("1")),
        done(frame(&format!("2 {numbers}"))),
        done(frame("3 5")),
        set(frame("20 49 0")),
    ]
}

/// The op and the numbers after it, and the bytes.
fn frame(words: &str) -> Frame {
    let (words, bytes) = words.split_once(" : ").unwrap_or((words, ""));
    let mut numbers = words.split(' ').map(|word| word.parse::<u32>().expect("a number"));
    let op = numbers.next().and_then(|op| u8::try_from(op).ok()).expect("an op");
    let bytes = bytes.split_terminator(' ').map(|word| word.parse::<u8>().expect("a byte"));
    Frame { op, numbers: numbers.collect(), bytes: bytes.collect() }
}

#[cfg(test)]
mod tests {
    use super::*;
    use crate::{acknowledging, fragments, repeats, snapshots};

    const TEXTS: [&str; 5] =
        [TEXT, acknowledging::RULES, fragments::RULES, repeats::RULES, snapshots::RULES];

    #[test]
    fn every_rule_replies_as_it_says() {
        for text in TEXTS {
            let mut output = Output::new(io::sink(), io::sink());
            output.model.snapshots = true;
            write_text(&mut output, text).unwrap();
        }
    }

    #[test]
    fn every_rule_has_a_name_of_its_own() {
        let rules = TEXTS.into_iter().flat_map(rules);
        let mut names: Vec<&str> = rules.map(|rule| rule.name).collect();
        let all = names.len();
        names.sort();
        names.dedup();
        assert_eq!(names.len(), all);
    }

    #[test]
    fn a_reply_of_1_is_not_one_of_13() {
        let step = |reply| Step { frame: frame("4"), reply: Some(reply) };
        assert!(step("1").holds("4 1 # 5") && step("13").holds("4 13 # 5"));
        assert!(!step("1").holds("4 13 # 5") && !step("0").holds("4 bad"));
    }
}
