//! `extent_through` called by itself, along the rows and along the columns: every mask up to four by four, random masks of all
//! small shapes, large ones of every kind; what is to stay as it was, and every refusal at its limits.

use std::hint::black_box;

use original::pixel::layout::compare_extent_through;

use super::Part;
use crate::bench::Bench;
use crate::lent::Words;
use crate::list::{hash, packed, List};
use crate::masks::{self, near, shown, LARGE_SHAPES, SIDES};
use crate::ours::{self, Answer};
use crate::pages::{Kind, KINDS};
use crate::random::Random;
use crate::tally::Tally;

pub const PART: Part = Part {
    name: "extents",
    compare,
    bench,
    list,
};

fn way(columns: bool) -> &'static str {
    if columns {
        "extents along the columns"
    } else {
        "extents along the rows"
    }
}

fn rust_extents(mask: &[u8], width: usize, columns: bool) -> Vec<u32> {
    let extents = compare_extent_through(mask, width, mask.len() / width, columns);
    extents.into_iter().map(u32::from).collect()
}

/// A mask within the limits, both ways, with `slack` words to spare.
fn one(tally: &mut Tally, lent: &mut Words, mask: &[u8], width: usize, slack: usize) {
    let (dots, height) = (mask.len(), mask.len() / width);
    let input = || shown(mask, width);
    for columns in [false, true] {
        let extents = lent.lend(dots + slack);
        let answer = ours::run_extents(mask, width as u32, height as u32, columns, extents);
        tally.equal("the answer", Answer { number: 0, value: 0 }, answer, input);
        let rust = rust_extents(mask, width, columns);
        tally.equal(way(columns), &rust[..], &lent.0[..dots], input);
        tally.equal("writing past", None, lent.written_from(dots), input);
    }
}

/// A call that is refused: the number, and nothing written.
fn refused(tally: &mut Tally, lent: &mut Words, mask: &[u8], width: u32, height: u32, length: usize) {
    let number = match masks::refusal(mask.len(), width, height) {
        Some(number) => number,
        None if length < mask.len() => 9,
        None => return,
    };
    let input = || format!("{width} x {height}, a mask of {}, lent {length}", mask.len());
    for columns in [false, true] {
        let extents = lent.lend(length);
        let answer = ours::run_extents(mask, width, height, columns, extents);
        tally.equal("the refusal", Answer { number, value: 0 }, answer, input);
        tally.equal("writing when refused", None, lent.written_from(0), input);
    }
}

fn compare(tally: &mut Tally) {
    let mut random = Random::new();
    let mut lent = Words::new();
    let mut each = |random: &mut Random, mask: &[u8], width: usize| {
        one(tally, &mut lent, mask, width, random.below(4) as usize);
    };
    masks::every_small_mask(&mut random, &mut each);
    masks::random_masks(&mut random, &mut each);
    for (width, height) in LARGE_SHAPES {
        for kind in KINDS {
            each(&mut random, &kind.page(width, height, &mut Random::new()), width);
        }
    }
    // a run of each length around the greatest extent told
    for length in 65_530..65_540 {
        let mut mask = vec![0; 65_540];
        mask[65_540 - length..].fill(1);
        each(&mut random, &mask, 65_540);
        each(&mut random, &mask, 1);
    }
    for width in SIDES {
        for height in SIDES {
            for mask in [&[][..], &[1][..], &[0, 1][..]] {
                refused(tally, &mut lent, mask, width, height, 0);
                refused(tally, &mut lent, mask, width, height, 5);
            }
        }
    }
    for (width, height) in [(1, 1), (1, 3), (4, 2), (5, 5)] {
        let dots = (width * height) as usize;
        for length in near(dots) {
            for extents in near(dots) {
                refused(tally, &mut lent, &vec![1; length], width, height, extents);
            }
        }
    }
}

/// The width and height of the benchmark's pages.
const PAGE: (usize, usize) = (2048, 3072);

fn bench(bench: &mut Bench) {
    let (width, height) = PAGE;
    let mut extents = vec![1; width * height];
    for kind in bench.kinds() {
        let mask = kind.page(width, height, &mut Random::new());
        for (stage, columns) in [("extents-rows", false), ("extents-columns", true)] {
            bench.stage(
                stage,
                &kind.to_string(),
                || {
                    black_box(compare_extent_through(black_box(&mask), width, height, columns));
                },
                || {
                    let mask = black_box(&mask);
                    let (width, height) = (width as u32, height as u32);
                    black_box(ours::run_extents(mask, width, height, columns, &mut extents));
                },
            );
        }
    }
}

/// The kind of its cases: width, height, 1 for the columns and 0 for the rows, the mask; then the hash of the extents.
const KIND: u8 = 0x0A;

/// Full runs: width, height, 1 for the columns and 0 for the rows; then the extent, which every dot has.
const FULL_KIND: u8 = 0x0F;

/// Full runs along a row and along a column, told along them and across. The first four are document 01's "Run of 70,000: 65,534", the
/// others are around the greatest extent.
fn full_runs(list: &mut List) {
    for length in [70_000, 65_533, 65_534, 65_535] {
        let mask = vec![1; length];
        for width in [length, 1] {
            for columns in [false, true] {
                let extents = rust_extents(&mask, width, columns);
                assert!(extents.iter().all(|extent| *extent == extents[0]), "a full run has one extent");
                let height = (length / width) as u64;
                list.case(FULL_KIND, &[width as u64, height, u64::from(columns), u64::from(extents[0])]);
            }
        }
    }
}

fn list(list: &mut List) {
    full_runs(list);
    let mut random = Random::new();
    let mut case = |mask: &[u8], width: usize| {
        for columns in [false, true] {
            let mut words = vec![width as u64, (mask.len() / width) as u64, u64::from(columns)];
            words.extend(packed(mask));
            words.push(hash(&rust_extents(mask, width, columns)));
            list.case(KIND, &words);
        }
    };
    for kind in KINDS {
        for (width, height) in [(32, 32), (7, 5)] {
            case(&kind.page(width, height, &mut random), width);
        }
    }
    for (width, height) in [(1, 1), (1, 2), (2, 1), (1, 40), (40, 1)] {
        case(&vec![1; width * height], width);
    }
    for (width, height) in [(300, 2), (333, 4), (65, 70)] {
        for _ in 0..2 {
            let mask = masks::crossing(width, height, &mut random);
            case(&mask, width);
            case(&masks::turned(&mask, width), height);
        }
    }
    for kind in [Kind::Text, Kind::Noise(10), Kind::Noise(15), Kind::Noise(20), Kind::Noise(30), Kind::Noise(70), Kind::Staircase] {
        case(&kind.page(300, 5, &mut random), 300);
        case(&kind.page(70, 66, &mut random), 70);
    }
}
