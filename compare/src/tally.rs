//! Counts a part's cases, and says where the two sides differ. A case is one answer of one function.

use std::collections::BTreeMap;
use std::fmt::Debug;

/// How many differences of each function are printed in full.
const SHOWN: u64 = 3;

pub struct Tally {
    part: &'static str,
    pub cases: u64,
    pub differences: u64,
    /// The functions that differ, with how often.
    differing: BTreeMap<String, u64>,
}

impl Tally {
    pub fn new(part: &'static str) -> Self {
        Tally {
            part,
            cases: 0,
            differences: 0,
            differing: BTreeMap::new(),
        }
    }

    /// One case: equal answers of any kind but floats.
    pub fn equal<T: PartialEq + Debug>(&mut self, what: &str, rust: T, ours: T, input: impl FnOnce() -> String) {
        self.cases += 1;
        if rust != ours {
            self.differ(what, &input(), &format!("{rust:?}"), &format!("{ours:?}"));
        }
    }

    /// One case: floats equal bit by bit, a NaN to any NaN.
    pub fn float(&mut self, what: &str, rust: f64, ours: f64, input: impl FnOnce() -> String) {
        self.cases += 1;
        if !same_float(rust, ours) {
            self.differ(what, &input(), &shown(rust), &shown(ours));
        }
    }

    #[cold]
    fn differ(&mut self, what: &str, input: &str, rust: &str, ours: &str) {
        self.differences += 1;
        let times = self.differing.entry(what.to_owned()).or_insert(0);
        *times += 1;
        if *times <= SHOWN {
            println!("{}: {what} of {input}: the Rust {rust}, ours {ours}", self.part);
        }
    }

    pub fn report(&self) {
        println!("{}: {} cases, {} differences", self.part, self.cases, self.differences);
    }
}

pub fn same_float(a: f64, b: f64) -> bool {
    a.to_bits() == b.to_bits() || (a.is_nan() && b.is_nan())
}

/// A float by its bits and its value.
pub fn shown(x: f64) -> String {
    format!("{:016X} ({x:e})", x.to_bits())
}
