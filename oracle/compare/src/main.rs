//! Writes call scripts (SCRIPT.md) with the lines that the oracle gives for them, and compares line files.

mod acknowledging;
mod arriving;
mod build;
mod damage;
mod events;
mod fragments;
mod frame;
mod lines;
mod living;
#[cfg(test)]
mod met;
mod mix;
mod model;
mod ops;
mod output;
mod packing;
mod piecing;
mod queueing;
mod random;
mod records;
mod repeats;
mod script;
mod sending;
mod sequence;
mod snapshots;
mod talking;
mod tally;

use std::{env, fs, io, process::ExitCode};

use arriving::taken;
use mix::Mix;
use output::Output;
use sending::{rules, sets};

fn main() -> ExitCode {
    let words: Vec<String> = env::args().skip(1).collect();
    let words: Vec<&str> = words.iter().map(String::as_str).collect();
    let done = match words.as_slice() {
        ["script", seed, count, script, lines] => write(seed, count, script, lines, None),
        ["script", seed, count, script, lines, ops] => write(seed, count, script, lines, Some(ops)),
        ["damage", script, lines] => written(script, lines, records::write_damage),
        [name, seed, count, script, lines] => write_drawn(name, seed, count, script, lines),
        ["repeats", seed, count, script, plain, inserted, lines] => {
            write_repeats(seed, count, [script, plain, inserted, lines])
        }
        ["without", inserted, got] => leave_out(inserted, got),
        ["every", set, script, lines] => write_every(set, script, lines),
        ["packing", seed, count] => beside(packing::compare, seed, count),
        ["reliable", seed, count] => beside(queueing::compare, seed, count),
        ["pieces", seed, count] => beside(piecing::compare, seed, count),
        ["events", seed, count] => beside(events::compare, seed, count),
        ["vectors", script, lines] => write_vectors(script, lines),
        ["lines", expected, got] => compare(expected, got),
        _ => Err(usage()),
    };
    done.unwrap_or_else(|why| {
        eprintln!("{why}");
        ExitCode::from(2)
    })
}

fn usage() -> String {
    let names: Vec<&str> = script::names().collect();
    let more: Vec<&str> = script::more().collect();
    format!(
        "usage:
  compare script SEED COUNT SCRIPT_FILE LINES_FILE [OPS]
      OPS: names with commas between; if left out: {}
      further names: {}
  compare records SEED COUNT SCRIPT_FILE LINES_FILE
  compare damage SCRIPT_FILE LINES_FILE
  compare sending SEED COUNT SCRIPT_FILE LINES_FILE
  compare arriving SEED COUNT SCRIPT_FILE LINES_FILE
  compare acknowledging SEED COUNT SCRIPT_FILE LINES_FILE
  compare fragments SEED COUNT SCRIPT_FILE LINES_FILE
  compare snapshots SEED COUNT SCRIPT_FILE LINES_FILE
  compare mutated SEED COUNT SCRIPT_FILE LINES_FILE
  compare talking SEED COUNT SCRIPT_FILE LINES_FILE
  compare living SEED COUNT SCRIPT_FILE LINES_FILE
  compare repeats SEED COUNT SCRIPT_FILE PLAIN_FILE INSERTED_FILE LINES_FILE
      PLAIN: the script without the inserted frames; INSERTED: the numbers of their lines
  compare without INSERTED GOT
  compare every SET SCRIPT_FILE LINES_FILE
      SET: {}, {}, {}, {}, {}
  compare packing SEED COUNT
  compare reliable SEED COUNT
  compare pieces SEED COUNT
  compare events SEED COUNT
  compare vectors SCRIPT_FILE LINES_FILE
  compare lines EXPECTED GOT",
        names.join(","),
        more.join(","),
        sets::NAMES.join(", "),
        arriving::NAMES.join(", "),
        acknowledging::NAMES.join(", "),
        fragments::NAMES.join(", "),
        snapshots::NAMES.join(", ")
    )
}

fn write(
    seed: &str,
    count: &str,
    script: &str,
    lines: &str,
    ops: Option<&str>,
) -> Result<ExitCode, String> {
    let plan = script::Plan {
        seed: number(seed)?,
        count: number(count)?,
        choice: script::Choice::named(ops)?,
    };
    written(script, lines, |output| plan.write(output))
}

/// A random script of so many records or calls.
fn write_drawn(
    name: &str,
    seed: &str,
    count: &str,
    script: &str,
    lines: &str,
) -> Result<ExitCode, String> {
    let write: fn(&mut Output, u64, u64) -> io::Result<()> = match name {
        "records" => |output, seed, count| records::write(output, seed, count, Mix::All),
        "sending" => |output, seed, count| sending::write(output, seed, count, Mix::All),
        "arriving" => |output, seed, count| arriving::write(output, seed, count, Mix::All),
        "acknowledging" => acknowledging::write,
        "fragments" => fragments::write,
        "snapshots" => snapshots::write,
        "mutated" => snapshots::write_mutated,
        "talking" => talking::write,
        "living" => living::write,
        _ => return Err(usage()),
    };
    let (seed, count) = (number(seed)?, number(count)?);
    written(script, lines, |output| write(output, seed, count))
}

/// Runs with inserted repeats, and the same without them.
fn write_repeats(seed: &str, count: &str, files: [&str; 4]) -> Result<ExitCode, String> {
    let (seed, count) = (number(seed)?, number(count)?);
    let [script, plain, inserted, lines] = files;
    let (plain, inserted) = (create(plain)?, create(inserted)?);
    written(script, lines, |output| repeats::write(output, plain, inserted, seed, count))
}

/// Prints the lines that are left without the inserted ones.
fn leave_out(inserted: &str, got: &str) -> Result<ExitCode, String> {
    print!("{}", lines::without(&read(inserted)?, &read(got)?)?);
    Ok(ExitCode::SUCCESS)
}

fn write_every(set: &str, script: &str, lines: &str) -> Result<ExitCode, String> {
    let write = sets::named(set).or_else(|| arriving::named(set));
    let write = write.or_else(|| acknowledging::named(set)).or_else(|| fragments::named(set));
    let write = write.or_else(|| snapshots::named(set));
    let write = write.ok_or_else(|| format!("there is no set {set}\n{}", usage()))?;
    written(script, lines, write)
}

/// The source beside document 01, without a script.
fn beside(
    compare: impl FnOnce(u64, u64) -> bool,
    seed: &str,
    count: &str,
) -> Result<ExitCode, String> {
    Ok(verdict(compare(number(seed)?, number(count)?)))
}

/// What the repository stores for replay: each kind of damage, random records, the rules of sending, some
/// sequences of sending and of dispatch and receive, then every other op, then arrivals, then acknowledgement, timeouts
/// and throttle, then two peers that talk, then repeats, then blocks in pieces, and last a cut frame.
fn write_vectors(script: &str, lines: &str) -> Result<ExitCode, String> {
    let plan = script::Plan { seed: 1, count: 3_000, choice: script::Choice::named(None)? };
    written(script, lines, |output| {
        records::write_damage(output)?;
        records::write(output, 3, 150, Mix::Stored)?;
        rules::write(output)?;
        sending::write(output, 5, 250, Mix::Stored)?;
        taken::write(output, 7, 250)?;
        plan.write_with(output, |output| {
            arriving::write_arrivals(output, 9, 400)?;
            acknowledging::write_stored(output, 11, 150)?;
            // Both moods, from a reset.
            talking::write(output, 5, 700)?;
            talking::write(output, 32, 700)?;
            repeats::write_stored(output, 15, 220)?;
            fragments::write_stored(output, 17, 300)
        })
    })
}

/// Both files, filled side by side.
fn written(
    script: &str,
    lines: &str,
    fill: impl FnOnce(&mut Output) -> io::Result<()>,
) -> Result<ExitCode, String> {
    let mut output = Output::new(create(script)?, create(lines)?);
    fill(&mut output).and_then(|()| output.finish()).map_err(|why| why.to_string())?;
    Ok(ExitCode::SUCCESS)
}

fn compare(expected: &str, got: &str) -> Result<ExitCode, String> {
    Ok(verdict(lines::compare(&read(expected)?, &read(got)?)))
}

fn verdict(same: bool) -> ExitCode {
    if same {
        ExitCode::SUCCESS
    } else {
        ExitCode::FAILURE
    }
}

fn number(word: &str) -> Result<u64, String> {
    word.parse().map_err(|_| format!("{word} is not a number\n{}", usage()))
}

fn create(name: &str) -> Result<io::BufWriter<fs::File>, String> {
    fs::File::create(name).map(io::BufWriter::new).map_err(|why| format!("{name}: {why}"))
}

fn read(name: &str) -> Result<String, String> {
    fs::read_to_string(name).map_err(|why| format!("{name}: {why}"))
}
