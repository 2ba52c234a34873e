//! Counts the cases and stops at the first that fails.

use std::fmt::Debug;

pub struct Tally {
    cases: u64,
}

impl Tally {
    pub fn new() -> Tally {
        Tally { cases: 0 }
    }

    pub fn cases(&self) -> u64 {
        self.cases
    }

    /// Begins a case: one hand-written line, or one generated input.
    pub fn case(&mut self) {
        self.cases += 1;
    }

    /// Stops the run where the claim does not hold.
    pub fn holds(&self, claim: bool, about: impl FnOnce() -> String) {
        if !claim {
            eprintln!("second: FAILED at case {}: {}", self.cases, about());
            std::process::exit(1);
        }
    }

    /// Stops the run where the answer is not the one wanted.
    pub fn same<T: PartialEq + Debug>(&self, got: T, want: T, about: impl FnOnce() -> String) {
        if got != want {
            let what = about();
            self.holds(false, || format!("{}\n  got  {:?}\n  want {:?}", what, got, want));
        }
    }

    /// A whole case in one line: what it shows, the line got, the line wanted.
    pub fn line(&mut self, shows: &str, got: String, want: &str) {
        self.case();
        self.same(got.as_str(), want, || shows.to_string());
    }
}
