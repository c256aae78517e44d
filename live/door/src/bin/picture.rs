//! picture: one run as an SVG, from its three logs. Words: room=FOLDER out=FILE

use door::words::Words;
use door::{picture, story, told, Fallible};
use std::path::PathBuf;

fn run() -> Fallible<()> {
    let words = Words::read(std::env::args(), &["room", "out"])?;
    let story = story::read(&PathBuf::from(words.text("room", ".")))?;
    std::fs::write(words.text("out", "live.svg"), picture::draw(&story))
        .map_err(told("the picture"))
}

fn main() {
    if let Err(error) = run() {
        eprintln!("picture: {error}");
        std::process::exit(2);
    }
}
