//! The proved link: replay as a child process, a frame a call. Every peer rule is behind these functions.

use crate::frames::{frame, line};
use crate::look::{look, Look};
use crate::{told, Fallible};
use std::io::{BufRead, BufReader, Write};
use std::process::{Child, ChildStdin, ChildStdout, Command as Process, Stdio};

pub const FROM_OUTGOING: u32 = 0;
pub const FROM_SEND_RELIABLE: u32 = 1;
pub const ASKS_FOR_ACKNOWLEDGEMENT: u32 = 128;

/// The commands that bring a payload.
pub const RELIABLE: u32 = 6;
pub const FRAGMENT: u32 = 8;
pub const UNSEQUENCED: u32 = 9;

/// A command as reader, writer and send step have it: byte, channel, number, and the fields in the source's order.
#[derive(Debug, Clone, PartialEq)]
pub struct Command {
    pub byte: u32,
    pub channel: u32,
    pub number: u32,
    pub fields: Vec<u32>,
}

impl Command {
    /// 1 to 12 as in public ENet.
    pub fn kind(&self) -> u32 {
        self.byte & 15
    }

    pub fn is_acknowledged(&self) -> bool {
        self.byte & ASKS_FOR_ACKNOWLEDGEMENT != 0
    }

    /// How many bytes follow: the only field of command 6, the second of 8 and 9.
    pub fn payload_length(&self) -> usize {
        match self.kind() {
            RELIABLE => self.fields[0] as usize,
            FRAGMENT | UNSEQUENCED => self.fields[1] as usize,
            _ => 0,
        }
    }

    /// The number by which it takes its turn on its channel: a piece's is its block's start.
    pub fn first_number(&self) -> u32 {
        if self.kind() == FRAGMENT {
            self.fields[0]
        } else {
            self.number
        }
    }
}

/// What a receive took out.
#[derive(Debug)]
pub struct Received {
    pub channel: u32,
    pub bytes: Vec<u8>,
    /// Its bytes stood in the second store.
    pub is_block: bool,
}

/// What a send step has put on its way.
#[derive(Debug)]
pub struct Step {
    pub queue_time: u32,
    pub offset: usize,
    pub piece: usize,
    pub attempts: u32,
    pub packet: bool,
    pub command: Command,
}

/// Document 01's reply: done or passed over with the values, or a refusal's number.
#[derive(Debug, PartialEq)]
pub enum Reply {
    Done(Vec<u32>),
    Refused(u32),
}

impl Reply {
    /// For a call that this host never has refused.
    pub fn done(self, call: &str) -> Fallible<Vec<u32>> {
        match self {
            Reply::Done(values) => Ok(values),
            Reply::Refused(number) => Err(format!("{call} was refused with {number}")),
        }
    }
}

pub struct Link {
    program: Child,
    input: Option<ChildStdin>,
    output: BufReader<ChildStdout>,
    pub calls: u64,
    pub hash: u32,
}

impl Link {
    pub fn start(command: &[String]) -> Fallible<Link> {
        let (name, words) = command.split_first().ok_or("no command for replay after --")?;
        let mut program = Process::new(name)
            .args(words)
            .stdin(Stdio::piped())
            .stdout(Stdio::piped())
            .spawn()
            .map_err(told("replay did not start"))?;
        let input = program.stdin.take();
        let output = BufReader::new(program.stdout.take().ok_or("replay has no output")?);
        Ok(Link { program, input, output, calls: 0, hash: 0 })
    }

    /// Writes a frame and waits for its line. A program that ended gives an empty line, and so an error.
    fn ask(&mut self, op: u8, numbers: &[u32], bytes: &[u8]) -> Fallible<Vec<u32>> {
        let input = self.input.as_mut().ok_or("replay's input is closed")?;
        input.write_all(&frame(op, numbers, bytes)).map_err(told("replay takes no frame"))?;
        let mut text = String::new();
        self.output.read_line(&mut text).map_err(told("replay gives no line"))?;
        let line = line(op, &text)?;
        self.calls += 1;
        self.hash = line.hash.unwrap_or(self.hash);
        Ok(line.numbers)
    }

    fn call(&mut self, op: u8, numbers: &[u32], bytes: &[u8]) -> Fallible<Reply> {
        let mut values = self.ask(op, numbers, bytes)?;
        if values.is_empty() {
            return Err(format!("replay's line of op {op} has no reply"));
        }
        Ok(match values.remove(0) {
            0 => Reply::Done(values),
            number => Reply::Refused(number),
        })
    }

    pub fn reset(&mut self) -> Fallible<()> {
        self.call(1, &[], &[])?.done("reset").map(|_| ())
    }

    pub fn begin(&mut self, mtu: u32, channels: u32) -> Fallible<()> {
        self.call(2, &[mtu, channels], &[])?.done("begin").map(|_| ())
    }

    pub fn set_state(&mut self, state: u32) -> Fallible<()> {
        self.call(3, &[state], &[])?.done("set state").map(|_| ())
    }

    pub fn ping(&mut self) -> Fallible<Reply> {
        self.call(4, &[], &[])
    }

    pub fn send(&mut self, channel: u32, length: usize, flags: u32) -> Fallible<Reply> {
        self.call(5, &[channel, length as u32, flags], &[])
    }

    /// A command of the peer itself, without a packet: connect, disconnect.
    pub fn setup(&mut self, command: &Command) -> Fallible<Reply> {
        let mut numbers =
            vec![command.byte, command.channel, command.number, command.kind(), 0, 0, 0];
        numbers.extend(&command.fields);
        self.call(6, &numbers, &[])
    }

    pub fn send_step(&mut self, list: u32, time: u32) -> Fallible<Option<Step>> {
        let values = self.call(7, &[list, time], &[])?.done("send step")?;
        Ok(match values[..] {
            [1, _, _, _, _, queue_time, offset, piece, attempts, packet, byte, channel, number, ref fields @ ..] => {
                Some(Step {
                    queue_time,
                    offset: offset as usize,
                    piece: piece as usize,
                    attempts,
                    packet: packet == 1,
                    command: Command { byte, channel, number, fields: fields.to_vec() },
                })
            }
            _ => None,
        })
    }

    pub fn acknowledgement(
        &mut self,
        channel: u32,
        number: u32,
        sent: u32,
        clock: u32,
    ) -> Fallible<Reply> {
        self.call(8, &[channel, number, sent, clock], &[])
    }

    /// Whether the peer is given up.
    pub fn timeout_check(&mut self, clock: u32) -> Fallible<bool> {
        Ok(self.call(9, &[clock], &[])?.done("timeout check")? == [3])
    }

    /// The arrival of command 6, 8 or 9; each takes the command's fields in their order, and the place of the payload.
    pub fn arrival(&mut self, command: &Command, place: usize, datagram: &[u8]) -> Fallible<Reply> {
        let op = match command.kind() {
            UNSEQUENCED => 10,
            FRAGMENT => 18,
            _ => 11,
        };
        let mut numbers = vec![command.byte, command.channel, command.number];
        numbers.extend(&command.fields);
        numbers.push(place as u32);
        self.call(op, &numbers, datagram)
    }

    /// The next packet with its bytes, from its cell of the store or, of a block, from the start of the second store. They are read before any other
    /// call: the next first piece sets the second store to 0.
    pub fn receive(&mut self) -> Fallible<Option<Received>> {
        let values = self.call(13, &[], &[])?.done("receive")?;
        let (channel, first, length, is_block) = match values[..] {
            [1, channel, cell, length] => (channel, 4096 * cell, length, false),
            [2, channel, _, length] => (channel, 0, length, true),
            _ => return Ok(None),
        };
        let bytes = self.ask(17, &[first, length, u32::from(is_block)], &[])?;
        let bytes = bytes.iter().map(|byte| *byte as u8).collect();
        Ok(Some(Received { channel, bytes, is_block }))
    }

    pub fn look(&mut self) -> Fallible<Look> {
        look(&self.ask(15, &[], &[])?)
    }

    /// The command at a place of a datagram and the place after it, or nothing where none can be read.
    pub fn read(&mut self, place: usize, datagram: &[u8]) -> Fallible<Option<(Command, usize)>> {
        match self.call(30, &[place as u32], datagram)? {
            Reply::Done(values) => match values[..] {
                [next, byte, channel, number, ref fields @ ..] => {
                    let fields = fields.to_vec();
                    Ok(Some((Command { byte, channel, number, fields }, next as usize)))
                }
                _ => Err("the reader's line is too short".to_string()),
            },
            Reply::Refused(_) => Ok(None),
        }
    }

    pub fn write(&mut self, command: &Command) -> Fallible<Vec<u8>> {
        let mut numbers = vec![command.byte, command.channel, command.number, command.kind(), 64];
        numbers.extend(&command.fields);
        let bytes = self.call(31, &numbers, &[])?.done("the writer")?;
        Ok(bytes.iter().map(|byte| *byte as u8).collect())
    }

    /// The distance of two times, document 01's.
    pub fn distance(&mut self, a: u32, b: u32) -> Fallible<u32> {
        self.ask(32, &[a, b], &[])?.first().copied().ok_or("no distance".to_string())
    }

    /// The bench's own, for counters that are to turn over: each channel's reliable numbers and both unsequenced groups start here.
    pub fn start_counters(&mut self, channels: u32, start: u32) -> Fallible<()> {
        for channel in 0..channels {
            self.ask(22, &[channel, 0, start], &[])?;
            self.ask(22, &[channel, 2, start], &[])?;
        }
        self.ask(20, &[45, start - start % 1024], &[])?;
        self.ask(20, &[46, start], &[])?;
        Ok(())
    }
}

/// At the end of its input the program ends; none is left behind.
impl Drop for Link {
    fn drop(&mut self) {
        self.input = None;
        let _ = self.program.wait();
    }
}
