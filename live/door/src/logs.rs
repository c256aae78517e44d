//! Logs: a line an event with its time, written by door, faults and gateway, read by judge and picture.

use crate::{clock::stamp, told, Fallible};
use std::fmt::Display;
use std::fs::File;
use std::io::{BufWriter, Write};
use std::path::Path;

pub struct Log(BufWriter<File>);

impl Log {
    pub fn create(path: &str) -> Fallible<Log> {
        File::create(path).map(|file| Log(BufWriter::new(file))).map_err(told(path))
    }

    pub fn event(&mut self, what: impl Display) -> Fallible<()> {
        writeln!(self.0, "{} {what}", stamp()).map_err(told("a log"))
    }

    /// A line without a time: what a run comes to.
    pub fn sum(&mut self, name: &str, value: impl Display) -> Fallible<()> {
        writeln!(self.0, "{name} {value}").map_err(told("a log"))
    }

    pub fn finish(mut self) -> Fallible<()> {
        self.0.flush().map_err(told("a log"))
    }
}

/// A log's lines as words; a last line without an end, of a program that died, is left out.
pub fn read(path: &Path) -> Fallible<Vec<Vec<String>>> {
    let text =
        std::fs::read_to_string(path).map_err(|error| format!("{}: {error}", path.display()))?;
    let whole = text.rfind('\n').map_or("", |end| &text[..end]);
    Ok(whole.lines().map(|line| line.split(' ').map(String::from).collect()).collect())
}

/// The value of a sum, if the log has it.
pub fn sum_of(lines: &[Vec<String>], name: &str) -> Option<String> {
    lines.iter().find(|line| line.len() == 2 && line[0] == name).map(|line| line[1].clone())
}

/// Likewise as a number, 0 if it is not there.
pub fn count_of(lines: &[Vec<String>], name: &str) -> u64 {
    sum_of(lines, name).and_then(|value| value.parse().ok()).unwrap_or(0)
}
