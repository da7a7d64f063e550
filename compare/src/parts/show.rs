//! The compiled show program against a model of it, written from document 01 and run by the original Rust: each input goes to the
//! standard input of a process of its own, and what the process prints is compared byte by byte, its status too. The inputs are those of
//! the list and random ones. How often each outcome was met is printed, and what the sheets had on them; each must be met a thousand times.

mod counts;
mod listed;
mod making;
mod model;
mod running;
mod spoiling;

use self::counts::Counts;
use self::making::Making;
use self::running::Program;
use super::Part;
use crate::bench::Bench;
use crate::tally::Tally;

pub const PART: Part = Part {
    name: "show",
    compare,
    bench,
    list: listed::list,
};

/// How many random inputs, and how many are made before they are run.
const INPUTS: usize = 131_072;
const BATCH: usize = 4096;

fn compare(tally: &mut Tally) {
    let program = Program::new();
    let mut making = Making::new();
    let mut counts = Counts::new();
    all_of(tally, &mut counts, &program, &listed::inputs());
    for batch in 0..INPUTS / BATCH {
        let inputs: Vec<Vec<u8>> = (batch * BATCH..).take(BATCH).map(|i| making.input(i)).collect();
        all_of(tally, &mut counts, &program, &inputs);
    }
    counts.report();
    let seldom = counts.seldom();
    tally.equal("met too seldom", Vec::new(), seldom, || "all inputs".to_owned());
}

fn all_of(tally: &mut Tally, counts: &mut Counts, program: &Program, inputs: &[Vec<u8>]) {
    for (input, (model, ran)) in inputs.iter().zip(program.run_all(inputs)) {
        let shown = || format!("the input {}", beginning(input));
        let printed = |bytes: &[u8]| bytes.escape_ascii().to_string();
        tally.equal("the status", Some(0), ran.status, shown);
        tally.equal("what is printed", printed(&model.printed), printed(&ran.printed), shown);
        counts.met(&model);
    }
}

/// Bytes as text, what is no plain character escaped; of many only the first.
fn beginning(bytes: &[u8]) -> String {
    const MOST: usize = 1000;
    let first = bytes[..bytes.len().min(MOST)].escape_ascii();
    if bytes.len() > MOST {
        format!("{first}.. of {} bytes", bytes.len())
    } else {
        first.to_string()
    }
}

/// Nothing is timed: a page of the show program is smaller than the start of a process.
fn bench(_: &mut Bench) {}
