//! The two files that are written side by side: the script and its lines.

use std::io::{self, Write};

use crate::{frame::Frame, model::Model, ops};

pub struct Output<'a> {
    script: Box<dyn Write + 'a>,
    lines: Box<dyn Write + 'a>,
    pub model: Model,
}

impl<'a> Output<'a> {
    pub fn new(script: impl Write + 'a, lines: impl Write + 'a) -> Self {
        Output { script: Box::new(script), lines: Box::new(lines), model: Model::new() }
    }

    /// Writes the frame and the line that answers it.
    pub fn put(&mut self, frame: &Frame) -> io::Result<()> {
        self.ask(frame).map(drop)
    }

    /// The same, and the line.
    pub fn ask(&mut self, frame: &Frame) -> io::Result<String> {
        let line = ops::answer(&mut self.model, frame);
        self.raw(&frame.encode(), &line)?;
        Ok(line)
    }

    /// Writes these bytes and this line.
    pub fn raw(&mut self, bytes: &[u8], line: &str) -> io::Result<()> {
        self.script.write_all(bytes)?;
        writeln!(self.lines, "{line}")
    }

    pub fn finish(mut self) -> io::Result<()> {
        self.script.flush()?;
        self.lines.flush()
    }
}
