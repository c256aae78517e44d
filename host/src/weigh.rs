//! The calls on a lent record: the deepest stack of each by a painted stack, and the time, beside the source's own.

#![no_main] // the ordinary runtime may crash at exit under the emulator

mod arrivals;
mod awaiting;
mod calls;
mod clock;
mod few;
mod paint;
mod record;
mod run;
mod sends;
mod sent;

use std::mem::size_of;

use calls::Kind;
use record::{
    begun, block, connected, delivered, fresh, holding, sent as having_sent, waiting, Record,
};

/// A packet that goes out whole, and one of 32 pieces.
const WHOLE: u32 = 100;
const PIECES: u32 = 32 * 1_364;

/// A group and a number that are taken, and those that are passed over.
const GROUP: u16 = 0;
const DISTANT: u16 = 32_768;
const NEXT: u16 = 1;
const LAST: u16 = 0;

/// All that can be sent, and when those are not due yet and are.
const ALL: u16 = 32;
const EARLY: u32 = 1_499;
const LATE: u32 = 1_500;

/// A round trip as the last one was: the throttle is raised.
const SAMPLE: u32 = 500;

/// Every time is the least of some rounds, each of so many calls.
const TURNS: usize = 500;

/// A call of the source: its time, and how many of its answers are wrong.
type Source = (&'static str, fn() -> (f64, u32));

const SOURCES: [Source; 24] = [
    ("send, 100 bytes", || sends::source(WHOLE)),
    ("send, 32 pieces", || sends::source(PIECES)),
    ("reset", sends::reset),
    ("ping", sends::ping),
    ("setup", sends::setup),
    ("throttle", || sends::throttle(SAMPLE)),
    ("unsequenced arrival", || arrivals::unsequenced(|turn| turn)),
    ("unsequenced arrival, passed over", || arrivals::unsequenced(|_| DISTANT)),
    ("reliable arrival", || arrivals::reliable(|turn| turn + NEXT)),
    ("reliable arrival, passed over", || arrivals::reliable(|_| LAST)),
    ("fragment arrival, first piece", || arrivals::fragment(&[], 0)),
    ("fragment arrival, last piece", || arrivals::fragment(&[0], 1)),
    ("fragment arrival, passed over", || arrivals::fragment(&[0], 0)),
    ("dispatch, 1 ready", || arrivals::dispatch(true)),
    ("dispatch, 1 waits", || arrivals::dispatch(false)),
    ("receive", arrivals::receive),
    ("acknowledgement, 1 sent", || awaiting::acknowledge(1)),
    ("acknowledgement, 2 sent", || awaiting::acknowledge(2)),
    ("acknowledgement, 32 sent", || awaiting::acknowledge(ALL)),
    ("acknowledgement, none removed", || awaiting::acknowledge_none(ALL)),
    ("timeouts, 2 wait", || awaiting::check(2, false)),
    ("timeouts, 2 go back", || awaiting::check(2, true)),
    ("timeouts, 32 wait", || awaiting::check(ALL, false)),
    ("timeouts, 32 go back", || awaiting::check(ALL, true)),
];

/// The source's times, and how many answers were wrong.
struct Table {
    sources: [f64; SOURCES.len()],
    wrong: u32,
}

impl Table {
    fn new() -> Self {
        let mut wrong = 0;
        let sources = SOURCES.map(|(name, timed)| {
            let (time, bad) = timed();
            wrong += bad;
            println!("the source's {name}: {time:.0} ns");
            time
        });
        Table { sources, wrong }
    }

    /// Nanoseconds of a call and its deepest stack, and what it leaves.
    fn weigh<T: Copy>(
        &mut self,
        start: &T,
        call: fn(&mut T) -> u32,
        answer: u32,
    ) -> (f64, usize, T) {
        let (stack, came, left) = paint::deepest(start, call);
        let (time, wrong) = few::lent(start, call, answer);
        self.wrong += wrong + u32::from(came != answer);
        (time, stack, left)
    }

    /// Beside the source's call of that name; beside its send, where it has none.
    fn line<T: Copy>(
        &mut self,
        [name, beside]: [&str; 2],
        start: &T,
        call: fn(&mut T) -> u32,
        answer: u32,
    ) -> T {
        let (time, stack, left) = self.weigh(start, call, answer);
        let beside = SOURCES.iter().position(|source| source.0 == beside).unwrap_or(0);
        let (beside, source) = (SOURCES[beside].0, self.sources[beside]);
        println!(
            "{name}: {time:.0} ns, {:.1} times the source's {beside} ({:+.0} ns); deepest stack {stack} bytes",
            time / source,
            time - source
        );
        left
    }

    /// A call on a record, which it must leave sound.
    fn row(&mut self, name: &str, start: &Record, call: fn(&mut Record) -> u32, answer: u32) {
        self.beside([name, name], start, call, answer);
    }

    /// The same beside the source's call of another name.
    fn beside(
        &mut self,
        names: [&str; 2],
        start: &Record,
        call: fn(&mut Record) -> u32,
        answer: u32,
    ) {
        let mut left = self.line(names, start, call, answer);
        self.wrong += u32::from(calls::sound(&mut left) != 1);
    }

    /// The same call alone and through the link, which must leave the same.
    fn linked(
        &mut self,
        name: &str,
        start: &Record,
        calls: [fn(&mut Record) -> u32; 2],
        answer: u32,
    ) {
        let [alone, linked] = calls.map(|call| self.weigh(start, call, answer));
        self.wrong += u32::from(alone.2 != linked.2);
        println!(
            "through the link, {name}: {:.0} ns, {:+.0} ns; deepest stack {} bytes, {:+} bytes",
            linked.0,
            linked.0 - alone.0,
            linked.1,
            linked.1 as i64 - alone.1 as i64
        );
    }
}

impl Table {
    /// The same call on the lent record and by value, which must leave the same; what reads and writes the record for it is taken off its time.
    fn valued(
        &mut self,
        name: &str,
        start: &Record,
        calls: [fn(&mut Record) -> u32; 2],
        answer: u32,
    ) {
        let copies = self.weigh(start, calls::copies, 0);
        let [mut lent, valued] = calls.map(|call| self.weigh(start, call, answer));
        // numbers that mean nothing, as a kind's unused ones, come back as 0
        calls::copies(&mut lent.2);
        self.wrong += u32::from(lent.2 != valued.2);
        println!(
            "by value, {name}: {:.0} ns, {:+.0} ns beside the lent record; to read and to write a record: {:.0} ns",
            valued.0 - copies.0,
            valued.0 - copies.0 - lent.0,
            copies.0
        );
    }
}

#[no_mangle]
pub extern "C" fn main(_count: i32, _words: *const *const std::ffi::c_char) -> i32 {
    println!("record: {} bytes", size_of::<Record>());
    let mut table = Table::new();
    begin(&mut table);
    send(&mut table);
    link(&mut table);
    receive(&mut table);
    await_answers(&mut table);
    walk(&mut table);
    println!("{} wrong answers", table.wrong);
    i32::from(table.wrong > 0)
}

fn begin(table: &mut Table) {
    let connected = connected();
    table.row("damage test, nothing sent", &connected, calls::sound, 1);
    table.row("damage test, 2 wait", &waiting(2), calls::sound, 1);
    table.row("damage test, 32 sent", &having_sent(ALL.into()), calls::sound, 1);
    table.row("reset", &connected, calls::reset, 0);
    table.row("begin", &fresh(), calls::begin, 0);
    table.row("set state", &connected, |words| calls::state(words, calls::MTU), 0);
    table.row("set state, 11", &connected, |words| calls::state(words, 0), 11);
}

fn send(table: &mut Table) {
    let connected = connected();
    let whole = |words: &mut Record| calls::send(words, calls::MTU, WHOLE);
    table.row("send, 100 bytes", &connected, whole, 0);
    let pieces = |words: &mut Record| calls::send(words, calls::MTU, PIECES);
    table.row("send, 32 pieces", &connected, pieces, 0);
    table.row("send, 11", &connected, |words| calls::send(words, 0, WHOLE), 11);
    table.row("ping", &connected, calls::ping, 0);
    table.row("setup", &connected, calls::setup, 0);
    for (name, count) in [("step, 1 waits", 1), ("step, 2 wait", 2), ("step, 32 wait", 32)] {
        table.row(name, &waiting(count), calls::step, 1);
    }
    table.row("throttle", &connected, |words| calls::throttle(words, SAMPLE), 1);
}

/// Calls alone, as data and by value: what the link adds. It is measured with the send's kind known to the compiler too.
fn link(table: &mut Table) {
    let (connected, sent, delivered) = (connected(), having_sent(2), delivered());
    let whole = |words: &mut Record| calls::send(words, calls::MTU, WHOLE);
    let send = |words: &mut Record| calls::link(words, Kind::Send, WHOLE, calls::RELIABLE);
    table.linked("send", &connected, [whole, calls::link_send], 0);
    table.linked("send, kind unknown", &connected, [whole, send], 0);
    let check = |words: &mut Record| calls::check(words, EARLY);
    let linked = |words: &mut Record| calls::link(words, Kind::Check, EARLY, 0);
    table.linked("timeouts, 2 wait, kind unknown", &sent, [check, linked], 1);
    let taken = |words: &mut Record| calls::link(words, Kind::Receive, 0, 0);
    table.linked("receive, kind unknown", &delivered, [calls::receive, taken], 1);
    let value = |words: &mut Record| calls::value(words, Kind::Send, WHOLE, calls::RELIABLE);
    table.valued("send", &connected, [whole, value], 0);
    let value = |words: &mut Record| calls::value(words, Kind::Check, EARLY, 0);
    table.valued("timeouts, 2 wait", &sent, [check, value], 1);
    let value = |words: &mut Record| calls::value(words, Kind::Receive, 0, 0);
    table.valued("receive", &delivered, [calls::receive, value], 1);
}

fn receive(table: &mut Table) {
    let connected = connected();
    let taken = |words: &mut Record| calls::unsequenced(words, GROUP);
    table.row("unsequenced arrival", &connected, taken, 1);
    let distant = |words: &mut Record| calls::unsequenced(words, DISTANT);
    table.row("unsequenced arrival, passed over", &connected, distant, 0);
    table.row("reliable arrival", &connected, |words| calls::reliable(words, NEXT), 1);
    let last = |words: &mut Record| calls::reliable(words, LAST);
    table.row("reliable arrival, passed over", &connected, last, 0);
    fragments(table);
    table.row("dispatch, 1 ready", &holding(1), calls::dispatch, 0);
    table.row("dispatch, 1 waits", &holding(0), calls::dispatch, 0);
    table.row("receive", &delivered(), calls::receive, 1);
}

/// The first piece clears the second store, the last dispatches the block.
fn fragments(table: &mut Table) {
    let pieces: [fn(&mut Record) -> u32; 2] =
        [|words| calls::fragment(words, 0), |words| calls::fragment(words, 1)];
    table.row("fragment arrival, first piece", &connected(), pieces[0], 1);
    table.row("fragment arrival, last piece", &begun(), pieces[1], 1);
    table.row("fragment arrival, passed over", &begun(), pieces[0], 0);
    table.beside(["receive, a block", "receive"], &block(), calls::receive, 2);
}

fn await_answers(table: &mut Table) {
    let first = |words: &mut Record| calls::acknowledge(words, 1);
    let [one, two, all] = [1, 2, ALL.into()].map(having_sent);
    table.row("acknowledgement, 1 sent", &one, first, 1);
    table.row("acknowledgement, 2 sent", &two, first, 1);
    table.row("acknowledgement, 32 sent", &all, first, 1);
    let none = |words: &mut Record| calls::acknowledge(words, ALL + 1);
    table.row("acknowledgement, none removed", &all, none, 1);
    let early = |words: &mut Record| calls::check(words, EARLY);
    let late = |words: &mut Record| calls::check(words, LATE);
    table.row("timeouts, 2 wait", &two, early, 1);
    table.row("timeouts, 2 go back", &two, late, 1);
    table.row("timeouts, 32 wait", &all, early, 1);
    table.row("timeouts, 32 go back", &all, late, 1);
}

fn walk(table: &mut Table) {
    let early = |run: &mut run::Run| run::walked(run, EARLY);
    let late = |run: &mut run::Run| run::walked(run, LATE);
    table.line(["lent walk, 32 wait", "timeouts, 32 wait"], &run::RUN, early, 0);
    table.line(["lent walk, 32 go back", "timeouts, 32 go back"], &run::RUN, late, 32);
}
