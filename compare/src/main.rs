//! Compares this project's functions with the original Rust's, times both, and writes the list that the gate replays.
//!
//! `compare run [PART..]` compares, `compare bench [PART.. PAGE..]` times, `compare flat [EXPONENT]` gives the cost of a dot on pages of
//! growing size, `compare list` writes the list to standard output, `compare definitions N` the Rust's answers for N pages as
//! equations over this project's definitions. No PART or PAGE means all. The parts are in `parts/`; `parts/mod.rs` says how to add
//! one. The bash scripts `run`, `bench`, `list` and `definitions` build all that is needed and call this.

mod bench;
mod definitions;
mod host;
mod lent;
mod list;
mod masks;
mod ours;
mod pages;
mod parts;
mod pbm;
mod random;
mod tally;

use std::process::ExitCode;

use parts::{Part, PARTS};

fn main() -> ExitCode {
    let words: Vec<String> = std::env::args().skip(1).collect();
    let Some((command, names)) = words.split_first() else {
        return usage();
    };
    if command == "flat" {
        return flat(names);
    }
    if command == "bench" {
        return bench(names);
    }
    if let ("definitions", [pages]) = (command.as_str(), names) {
        return pages.parse().map_or_else(
            |_| usage(),
            |pages| {
                print!("{}", definitions::module(pages));
                ExitCode::SUCCESS
            },
        );
    }
    let Some(chosen) = chosen(names) else {
        return usage();
    };
    match command.as_str() {
        "run" => run(&chosen, names.is_empty()),
        "list" => {
            print!("{}", list::whole());
            ExitCode::SUCCESS
        }
        _ => usage(),
    }
}

/// The parts of these names, all where there is none; nothing where a name is no part's.
fn chosen(names: &[String]) -> Option<Vec<&'static Part>> {
    if names.is_empty() {
        return Some(PARTS.iter().collect());
    }
    names
        .iter()
        .map(|name| PARTS.iter().find(|part| part.name == name))
        .collect()
}

/// Runs the parts. The last line is the sum of theirs. A run of all also holds the committed list to the Rust's answers
/// of today, so that the gate never replays an old one.
fn run(chosen: &[&Part], all: bool) -> ExitCode {
    println!("seed {:016X}", random::SEED);
    let (mut cases, mut differences) = (0, 0);
    for part in chosen {
        let mut tally = tally::Tally::new(part.name);
        (part.compare)(&mut tally);
        tally.report();
        cases += tally.cases;
        differences += tally.differences;
    }
    if all {
        let mut tally = tally::Tally::new("list");
        list::compare(&mut tally);
        tally.report();
        differences += tally.differences;
    }
    println!("compared {cases} cases, {differences} differences");
    if differences == 0 {
        ExitCode::SUCCESS
    } else {
        ExitCode::FAILURE
    }
}

/// Times the parts named, on the kinds of pages named, and the whole pass on the scans named; the parts only where no scan is named.
fn bench(words: &[String]) -> ExitCode {
    let (scans, words): (Vec<String>, Vec<String>) = words.iter().cloned().partition(|word| word.ends_with(".pbm"));
    if !scans.is_empty() && words.is_empty() {
        return bench_scans(&scans);
    }
    let (pages, names): (Vec<String>, Vec<String>) =
        words.iter().cloned().partition(|word| pages::named(word).is_some());
    let Some(chosen) = chosen(&names) else {
        return usage();
    };
    let kinds: Vec<pages::Kind> = pages.iter().filter_map(|page| pages::named(page)).collect();
    for part in chosen {
        (part.bench)(&mut bench::Bench::new(kinds.clone()));
    }
    ExitCode::SUCCESS
}

/// Times the whole pass on these PBM files; one that cannot be read or is refused is told and passed over.
fn bench_scans(files: &[String]) -> ExitCode {
    let mut status = ExitCode::SUCCESS;
    for file in files {
        let path = std::path::Path::new(file);
        match pbm::read(path) {
            Ok(scan) => {
                let name = path.file_stem().map_or_else(|| file.clone(), |stem| stem.to_string_lossy().into_owned());
                parts::segments::bench_scan(&mut bench::Bench::new(Vec::new()), &name, &scan.mask, scan.width);
            }
            Err(error) => {
                eprintln!("{error}");
                status = ExitCode::FAILURE;
            }
        }
    }
    status
}

/// The cost of a dot, on pages of 2^20 dots up to 2^24, or as high as the argument says.
fn flat(words: &[String]) -> ExitCode {
    let most = match words {
        [] => Some(24),
        [word] => word.parse().ok().filter(|most| (20..=28).contains(most)),
        _ => None,
    };
    let Some(most) = most else {
        return usage();
    };
    parts::labelling::flat(&mut bench::Bench::new(Vec::new()), most);
    ExitCode::SUCCESS
}

fn usage() -> ExitCode {
    let names: Vec<&str> = PARTS.iter().map(|part| part.name).collect();
    eprintln!(
        "usage: compare run [PART..], compare bench [PART.. PAGE..], compare flat [20..28], compare list or compare definitions N; parts: {}",
        names.join(" ")
    );
    ExitCode::from(2)
}
