//! The clock, which the host owns: milliseconds modulo 2^32 from wherever it is started. And the time of a log's line.

use std::sync::atomic::{AtomicBool, Ordering};
use std::sync::Arc;
use std::time::{Duration, Instant, SystemTime, UNIX_EPOCH};

pub struct Clock {
    began: Instant,
    first: u32,
}

impl Clock {
    pub fn starting_at(first: u32) -> Clock {
        Clock { began: Instant::now(), first }
    }

    pub fn now(&self) -> u32 {
        self.first.wrapping_add(self.elapsed().as_millis() as u32)
    }

    pub fn first(&self) -> u32 {
        self.first
    }

    /// Time since the start, for what is no peer rule: how fast reports are made, when a run ends.
    pub fn elapsed(&self) -> Duration {
        self.began.elapsed()
    }
}

/// Microseconds that door, faults and gateway have in common, so that one picture can show all three.
pub fn stamp() -> u64 {
    SystemTime::now().duration_since(UNIX_EPOCH).map_or(0, |passed| passed.as_micros() as u64)
}

/// Ends the program after so long, whatever it waits for.
pub fn end_after(limit: Duration, name: &'static str) {
    std::thread::spawn(move || {
        std::thread::sleep(limit);
        eprintln!("{name}: stopped at its limit of {} s", limit.as_secs());
        std::process::exit(3);
    });
}

/// True once standard input has ended.
pub fn input_ended() -> Arc<AtomicBool> {
    let ended = Arc::new(AtomicBool::new(false));
    let flag = ended.clone();
    std::thread::spawn(move || {
        let _ = std::io::copy(&mut std::io::stdin(), &mut std::io::sink());
        flag.store(true, Ordering::Relaxed);
    });
    ended
}
