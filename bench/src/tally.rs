//! Counts of compared calls, in groups.
use std::collections::BTreeMap;
use std::process::ExitCode;

/// How many differences are shown.
const SHOWN: u64 = 10;

/// What was compared.
#[derive(Default)]
pub struct Tally {
    /// Calls by the number of their answer, and differences, of the group that runs.
    numbers: BTreeMap<u32, u64>,
    differing: u64,
    all: u64,
    differences: u64,
}

impl Tally {
    /// Counts a call by the number of its answer. Where the two sides differ, `told` says how.
    pub fn count(&mut self, number: u32, same: bool, told: impl FnOnce() -> String) {
        *self.numbers.entry(number).or_default() += 1;
        self.all += 1;
        if same {
            return;
        }
        self.differing += 1;
        self.differences += 1;
        if self.differences <= SHOWN {
            println!("{}", told());
        }
    }

    /// Prints the counts of a group, and begins the next.
    pub fn group(&mut self, name: &str) {
        let calls: u64 = self.numbers.values().sum();
        let parts: Vec<String> = self
            .numbers
            .iter()
            .map(|(n, count)| format!("{n}: {count}"))
            .collect();
        println!(
            "{name:<44} {calls:>8} calls, {} differences ({})",
            self.differing,
            parts.join(", ")
        );
        self.numbers.clear();
        self.differing = 0;
    }

    /// Prints the counts of all groups. Gives a failure where a call differed.
    pub fn end(&self) -> ExitCode {
        println!("{} calls, {} differences", self.all, self.differences);
        match self.differences {
            0 => ExitCode::SUCCESS,
            _ => ExitCode::FAILURE,
        }
    }
}
