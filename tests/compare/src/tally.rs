//! Counting comparisons; the first difference ends the run and prints its input.

use std::fmt::Debug;

/// How many comparisons were made of each kind.
#[derive(Default)]
pub struct Tally {
    total: u64,
    since: u64,
}

impl Tally {
    /// The library's answer and the second program's are one.
    pub fn same<T: PartialEq + Debug>(&mut self, input: &dyn Debug, ours: Result<T, String>, theirs: T) {
        self.total += 1;
        match ours {
            Ok(ours) if ours == theirs => {}
            Ok(ours) => end(input, &format!("{ours:?}"), &format!("{theirs:?}")),
            Err(broken) => end(input, &broken, &format!("{theirs:?}")),
        }
    }

    /// What has been compared since the last report.
    pub fn report(&mut self, what: &str) {
        println!("{what}: {} compared", self.total - self.since);
        self.since = self.total;
    }

    pub fn total(&self) -> u64 {
        self.total
    }
}

fn end(input: &dyn Debug, ours: &str, theirs: &str) -> ! {
    println!("a difference at {input:?}\n  the library: {ours}\n  the second program: {theirs}");
    std::process::exit(1);
}
