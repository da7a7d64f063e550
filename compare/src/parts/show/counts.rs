//! How often each outcome was met, and what the sheets had on them.

use std::collections::BTreeMap;

use super::model::{Model, Outcome};
use crate::parts::segments::Answers;

/// Each is to be met as often, at the least.
const LEAST: u64 = 1000;

const SHEET: &str = "sheet";
const OUTCOMES: [&str; 6] = [SHEET, "FF00", "FF01", "FF04", "FF05", "FF14"];

/// What a sheet can have on it, by which it is counted.
const FOUND: [(&str, fn(&Answers) -> bool); 10] = [
    ("no ink", |a| a.layout.ink_pixels == 0),
    ("several lines", |a| a.layout.lines.len() > 1),
    ("several blocks", |a| a.layout.blocks.len() > 1),
    ("a block of several lines", |a| {
        a.layout.blocks.iter().any(|b| b.lines.len() > 1)
    }),
    ("several columns", |a| a.layout.columns.len() > 1),
    ("a cut ruling", |a| a.kinds.contains(&1)),
    ("a rule piece", |a| a.kinds.contains(&2)),
    ("a graphic", |a| !a.layout.graphics.is_empty()),
    ("a glyph without a line", |a| {
        a.layout.glyphs.iter().any(|g| g.line.is_none())
    }),
    ("a frame larger than the page", |a| a.layout.width > a.layout.page_width),
];

pub struct Counts {
    outcomes: BTreeMap<String, u64>,
    found: [u64; FOUND.len()],
}

impl Counts {
    pub fn new() -> Self {
        Counts {
            outcomes: BTreeMap::new(),
            found: [0; FOUND.len()],
        }
    }

    pub fn met(&mut self, model: &Model) {
        let name = match &model.outcome {
            Outcome::Sheet(answers) => {
                for (times, (_, test)) in self.found.iter_mut().zip(FOUND) {
                    *times += u64::from(test(answers));
                }
                SHEET.to_owned()
            }
            Outcome::Refused(number) => format!("FF{number:02X}"),
        };
        *self.outcomes.entry(name).or_insert(0) += 1;
    }

    fn times(&self, outcome: &str) -> u64 {
        self.outcomes.get(outcome).copied().unwrap_or(0)
    }

    /// A line with every outcome and how often it was met, and one of the sheets.
    pub fn report(&self) {
        let each: Vec<String> = self
            .outcomes
            .iter()
            .map(|(name, times)| format!("{name}: {times}"))
            .collect();
        println!("show: inputs by what is printed: {}", each.join(", "));
        let found = self.found.iter().zip(FOUND);
        let each: Vec<String> = found.map(|(times, (name, _))| format!("{name}: {times}")).collect();
        println!("show: sheets with {}", each.join(", "));
    }

    /// The outcomes and finds that were met too seldom.
    pub fn seldom(&self) -> Vec<&'static str> {
        let outcomes = OUTCOMES.into_iter().filter(|name| self.times(name) < LEAST);
        let found = self.found.iter().zip(FOUND).filter(|(&times, _)| times < LEAST);
        outcomes.chain(found.map(|(_, (name, _))| name)).collect()
    }
}
