//! Counts of what was compared, and the line that says so.

use std::fmt::Debug;

#[derive(Default)]
pub struct Tally {
    calls: u64,
    differences: u64,
}

impl Tally {
    /// Shows the first differences with their input.
    pub fn compare<T: PartialEq + Debug>(&mut self, input: &dyn Debug, ours: T, source: T) {
        self.calls += 1;
        if ours != source {
            self.differences += 1;
            if self.differences <= 5 {
                println!("  {input:?}: ours {ours:?}, the source {source:?}");
            }
        }
    }

    /// The line of one comparison, with each side's time for the same inputs.
    pub fn close(self, name: &str, ours: f64, source: f64) -> u64 {
        println!(
            "{name}: {} calls, {} differences; {ours:.0} ns a call, the source {source:.0} ns, ratio {:.2}",
            self.calls,
            self.differences,
            ours / source,
        );
        self.differences
    }
}
