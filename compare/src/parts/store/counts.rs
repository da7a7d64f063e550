//! How often each refusal of document 01 was met.

use std::collections::BTreeMap;

/// Document 01's numbers.
const NUMBERS: [u32; 15] = [1, 2, 3, 4, 5, 6, 7, 8, 9, 16, 17, 18, 19, 20, 21];

/// Each is to be met as often, at the least.
const LEAST: u64 = 1000;

pub struct Counts(BTreeMap<u32, u64>);

impl Counts {
    pub fn new() -> Self {
        Counts(BTreeMap::new())
    }

    pub fn met(&mut self, number: u32) {
        *self.0.entry(number).or_insert(0) += 1;
    }

    /// A line with every number and how often it was met, 0 for the accepted calls.
    pub fn report(&self, what: &str) {
        let each: Vec<String> = self
            .0
            .iter()
            .map(|(number, times)| format!("{number}: {times}"))
            .collect();
        println!("store: {what}, calls by their number: {}", each.join(", "));
    }

    pub fn add(&mut self, other: &Counts) {
        for (&number, &times) in &other.0 {
            *self.0.entry(number).or_insert(0) += times;
        }
    }

    /// The numbers that were met too seldom.
    pub fn seldom(&self) -> Vec<u32> {
        let times = |number: &u32| self.0.get(number).copied().unwrap_or(0);
        NUMBERS.into_iter().filter(|number| times(number) < LEAST).collect()
    }
}
