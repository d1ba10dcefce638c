//! What came out of the comparisons.

use independent::bridge::{Call, NAMES};
use std::collections::BTreeMap;

/// How many differences are printed.
const PRINTED: u64 = 20;

/// What came out so far, and the calls by entry and code.
#[derive(Default)]
pub struct Tally {
    passed: u64,
    pub failed: u64,
    codes: BTreeMap<(usize, u64), u64>,
}

impl Tally {
    /// Counts a call.
    pub fn count(&mut self, call: &Call, difference: Option<String>) {
        *self.codes.entry((call.number(), call.code())).or_default() += 1;
        match difference {
            None => self.passed += 1,
            Some(difference) => self.fail(format!("{}: {difference}", call.name())),
        }
    }

    /// Counts a failure.
    pub fn fail(&mut self, message: String) {
        self.failed += 1;
        if self.failed <= PRINTED {
            println!("{message}");
        }
    }

    /// The calls by entry and code, and the last line.
    pub fn print(&self) {
        for (entry, name) in NAMES.iter().enumerate() {
            let of_entry = self.codes.iter().filter(|((number, _), _)| *number == entry);
            let codes: Vec<String> = of_entry.map(|((_, code), count)| format!("{code}: {count}")).collect();
            println!("{name} by code: {}", codes.join(", "));
        }
        println!("{} passed, {} failed", self.passed, self.failed);
    }
}
