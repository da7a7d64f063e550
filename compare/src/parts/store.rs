//! The store, through its C names: pages levelled, segmented and read against the Rust; random lists of calls against a model of the
//! ink account; stores with a word or a byte changed, and with invented results, against a judge of spoiled stores. Every number, answer and output is compared, and
//! every word and byte that a call may not write. How often each refusal was met is printed, and each must be met a thousand times.

mod account;
mod bench;
mod calls;
mod counts;
mod histories;
mod invented;
mod judge;
mod listed;
mod making;
mod pages;
mod rules;
mod spoiled;

use self::counts::Counts;
use super::Part;
use crate::random::Random;
use crate::tally::Tally;

pub const PART: Part = Part {
    name: "store",
    compare,
    bench: bench::bench,
    list: listed::list,
};

fn compare(tally: &mut Tally) {
    let mut random = Random::new();
    let mut all = Counts::new();
    let parts: [(&str, fn(&mut Tally, &mut Counts, &mut Random)); 4] = [
        ("pages", pages::compare),
        ("histories", histories::compare),
        ("spoiled stores", spoiled::compare),
        ("invented results", invented::compare),
    ];
    for (name, part) in parts {
        let mut counts = Counts::new();
        part(tally, &mut counts, &mut random);
        counts.report(name);
        all.add(&counts);
    }
    all.report("all");
    tally.equal("refusals met too seldom", Vec::new(), all.seldom(), || "all calls".to_owned());
}
