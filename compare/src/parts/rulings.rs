//! `thin_ruling_pixels`: both cut masks on every mask up to four by four with several limits of run and thickness, on random masks and
//! on large ones, pages of rulings among them; and how many components each cut mask has, with capacities around the greater number.

use std::hint::black_box;

use original::pixel::components::label_8;
use original::pixel::layout::compare_thin_ruling_pixels;

use super::segments::{scratch_words, MOST_CAPACITY};
use super::Part;
use crate::bench::Bench;
use crate::lent::Words;
use crate::list::List;
use crate::masks::{self, near, shown};
use crate::ours;
use crate::pages::{Kind, KINDS};
use crate::random::Random;
use crate::tally::Tally;

pub const PART: Part = Part {
    name: "rulings",
    compare,
    bench,
    list,
};

/// Both cut masks as marks: 1 in the horizontal one, 2 in the vertical one.
fn rust_marks(ink: &[u8], width: usize, run_min: u32, thick_max: u32) -> Vec<u32> {
    let height = ink.len() / width;
    let (a, b) = compare_thin_ruling_pixels(ink, width, height, run_min as usize, thick_max as usize);
    a.iter().zip(&b).map(|(&a, &b)| u32::from(a) + 2 * u32::from(b)).collect()
}

/// A mask with these limits: words before the marks, three more than are needed, and three past them.
fn one(tally: &mut Tally, lent: &mut Words, ink: &[u8], width: usize, run_min: u32, thick_max: u32) {
    let (dots, height) = (ink.len(), ink.len() / width);
    let input = || format!("{}, run {run_min}, thickness {thick_max}", shown(ink, width));
    let marks = 2 * width.max(height) + 3;
    let words = lent.lend(marks + dots + 3);
    let done = ours::thin_rulings(ink, width as u32, height as u32, run_min, thick_max, words, marks as u32);
    tally.equal("the answer", true, done, input);
    let rust = rust_marks(ink, width, run_min, thick_max);
    tally.equal("cut masks", &rust[..], &lent.0[marks..marks + dots], input);
    tally.equal("words past the marks", None, lent.written_from(marks + dots), input);
}

/// How many components the Rust's cut masks have: the horizontal one, then the vertical one.
pub fn rust_counts(ink: &[u8], width: usize, run_min: usize, thick_max: usize) -> [u32; 2] {
    let height = ink.len() / width;
    let (a, b) = compare_thin_ruling_pixels(ink, width, height, run_min, thick_max);
    [a, b].map(|mask| label_8(&mask, width, height).components.len() as u32)
}

/// What is lent to a cut.
struct CutLent {
    words: Words,
    counts: Words,
}

/// A mask cut with this capacity: three words more than are needed are lent.
fn cut(tally: &mut Tally, lent: &mut CutLent, ink: &[u8], width: usize, limits: [u32; 2], rust: [u32; 2], capacity: u32) {
    let height = ink.len() / width;
    let input = || format!("{}, run and thickness {limits:?}, P {capacity}", shown(ink, width));
    let needed = scratch_words(ink.len(), capacity as usize);
    let (words, counts) = (lent.words.lend(needed + 3), lent.counts.lend(5));
    let [run_min, thick_max] = limits;
    let number = ours::cut_rulings(ink, width as u32, height as u32, run_min, thick_max, capacity, words, counts);
    let many = rust.iter().any(|&count| capacity < count);
    tally.equal("the number", if many { 20 } else { 0 }, number, input);
    tally.equal("words past scratch", None, lent.words.written_from(needed), input);
    if many {
        tally.equal("counts when refused", None, lent.counts.written_from(0), input);
    } else {
        tally.equal("counts", &rust[..], &lent.counts.0[..2], input);
        tally.equal("words past the counts", None, lent.counts.written_from(2), input);
    }
}

/// A mask cut with as much capacity as its cut masks need or a little more, and with one less.
fn cut_around(tally: &mut Tally, lent: &mut CutLent, random: &mut Random, ink: &[u8], width: usize, limits: [u32; 2]) {
    let rust = rust_counts(ink, width, limits[0].max(2) as usize, limits[1] as usize);
    let most = rust[0].max(rust[1]);
    let room = (most.max(1) + random.below(4) as u32).min(MOST_CAPACITY);
    cut(tally, lent, ink, width, limits, rust, room);
    if 1 < most {
        cut(tally, lent, ink, width, limits, rust, (most - 1).min(MOST_CAPACITY));
    }
}

/// Frames of every kind, to the longest sides; one byte of ink is as good as another.
fn large_cuts(tally: &mut Tally, lent: &mut CutLent, random: &mut Random) {
    for (width, height) in [(1000, 700), (2000, 40), (40, 2000), (1, 3000), (3000, 1), (24_574, 2), (2, 16_383)] {
        for kind in KINDS {
            let mut ink = kind.page(width, height, random);
            for limits in [[0, 0], [1, 1], [2, 1], [40, 3], [500, 8], [70_000, 65_534]] {
                cut_around(tally, lent, random, &ink, width, limits);
            }
            ink.iter_mut().filter(|byte| **byte != 0).for_each(|byte| *byte = 1 + random.below(255) as u8);
            cut_around(tally, lent, random, &ink, width, [5, 2]);
        }
    }
}

/// What is outside its limits or too short: its number, and nothing written.
fn refused_cuts(tally: &mut Tally, lent: &mut CutLent) {
    // width, height, length of the ink, capacity, words of scratch, words of counts, number
    let calls = [
        (0, 1, 0, 0, 0, 0, 1),
        (1, 0, 0, 4, 900, 2, 1),
        (24_575, 1, 24_575, 4, 200_000, 2, 1),
        (1, 16_384, 16_384, 4, 200_000, 2, 1),
        (u32::MAX, u32::MAX, 6, 4, 900, 2, 1),
        (3, 2, 5, 0, 0, 0, 2),
        (3, 2, 7, 4, 900, 2, 2),
        (3, 2, 6, 0, 0, 0, 7),
        (3, 2, 6, MOST_CAPACITY + 1, 2_000_000, 2, 7),
        (3, 2, 6, u32::MAX, 900, 2, 7),
    ];
    let needed = scratch_words(6, 4);
    let short = near(needed).into_iter().map(|words| (3, 2, 6, 4, words, 2, if words < needed { 9 } else { 0 }));
    let few = near(2).into_iter().map(|counts| (3, 2, 6, 4, needed, counts, if counts < 2 { 9 } else { 0 }));
    for call in calls.into_iter().chain(short).chain(few) {
        let (width, height, ink, capacity, words, counts, number) = call;
        let (words, counts) = (lent.words.lend(words), lent.counts.lend(counts));
        let answer = ours::cut_rulings(&vec![1; ink], width, height, 2, 1, capacity, words, counts);
        tally.equal("the number", number, answer, || format!("{call:?}"));
        if number != 0 {
            tally.equal("words when refused", None, lent.words.written_from(0), || format!("{call:?}"));
            tally.equal("counts when refused", None, lent.counts.written_from(0), || format!("{call:?}"));
        }
    }
}

fn compare_cuts(tally: &mut Tally) {
    let mut random = Random::new();
    let mut lent = CutLent {
        words: Words::new(),
        counts: Words::new(),
    };
    masks::every_small_mask(&mut random, &mut |random, ink, width| {
        for limits in [[0, 1], [2, 1], [3, 2], [4, 3]] {
            cut_around(tally, &mut lent, random, ink, width, limits);
        }
    });
    masks::random_masks(&mut random, &mut |random, ink, width| {
        let limits = [random.below(20) as u32, random.below(6) as u32];
        cut_around(tally, &mut lent, random, ink, width, limits);
    });
    large_cuts(tally, &mut lent, &mut random);
    refused_cuts(tally, &mut lent);
}

fn large_masks(tally: &mut Tally, lent: &mut Words, random: &mut Random) {
    for (width, height) in [(1000, 700), (2000, 40), (40, 2000), (1, 3000), (3000, 1), (70_000, 2), (2, 70_000)] {
        for kind in KINDS {
            let ink = kind.page(width, height, random);
            for (run_min, thick_max) in [(2, 1), (40, 3), (500, 8), (70_000, 65_534)] {
                one(tally, lent, &ink, width, run_min, thick_max);
            }
        }
    }
}

/// What is outside its limits or too short: nothing written.
fn refused(tally: &mut Tally, lent: &mut Words) {
    // width, height, length of the ink, run, words from the marks on, words before them
    let calls = [
        (0, 1, 0, 2, 9, 9),
        (1, 0, 0, 2, 9, 9),
        (131_073, 1, 131_073, 2, 131_073, 300_000),
        (1, 131_073, 131_073, 2, 131_073, 300_000),
        (65_536, 65_536, 0, 2, 9, 300_000),
        (3, 2, 5, 2, 6, 6),
        (3, 2, 7, 2, 7, 6),
        (3, 2, 6, 2, 5, 6),
        (3, 2, 6, 2, 6, 5),
        (2, 3, 6, 2, 6, 5),
        (3, 2, 6, 1, 6, 6),
        (3, 2, 6, 0, 6, 6),
    ];
    for call in calls {
        let (width, height, ink, run_min, behind, marks) = call;
        let words = lent.lend(marks + behind);
        let done = ours::thin_rulings(&vec![1; ink], width, height, run_min, 1, words, marks as u32);
        tally.equal("the refusal", false, done, || format!("{call:?}"));
        tally.equal("words when refused", None, lent.written_from(0), || format!("{call:?}"));
    }
    // the marks lie past the words
    let words = lent.lend(40);
    let done = ours::thin_rulings(&[1; 6], 3, 2, 2, 1, words, 41);
    tally.equal("the refusal", false, done, || "marks past the words".to_string());
    tally.equal("words when refused", None, lent.written_from(0), || "marks past the words".to_string());
}

fn compare(tally: &mut Tally) {
    let mut random = Random::new();
    let mut lent = Words::new();
    masks::every_small_mask(&mut random, &mut |_, ink, width| {
        for (run_min, thick_max) in [(2, 1), (2, 2), (3, 1), (3, 2), (3, 4), (4, 3)] {
            one(tally, &mut lent, ink, width, run_min, thick_max);
        }
    });
    masks::random_masks(&mut random, &mut |random, ink, width| {
        let (run_min, thick_max) = (2 + random.below(20) as u32, random.below(6) as u32);
        one(tally, &mut lent, ink, width, run_min, thick_max);
    });
    large_masks(tally, &mut lent, &mut random);
    refused(tally, &mut lent);
    compare_cuts(tally);
}

/// Pages of 2048 x 3072, with the limits that text of that size has.
fn bench(bench: &mut Bench) {
    let (width, height, run_min, thick_max) = (2048usize, 3072usize, 76u32, 6u32);
    let mut words = vec![1; 2 * height + width * height];
    for kind in bench.kinds() {
        let ink = kind.page(width, height, &mut Random::new());
        bench.stage(
            "rulings",
            &kind.to_string(),
            || {
                let (run_min, thick_max) = (run_min as usize, thick_max as usize);
                black_box(compare_thin_ruling_pixels(black_box(&ink), width, height, run_min, thick_max));
            },
            || {
                let (width, height) = (width as u32, height as u32);
                let ink = black_box(&ink);
                black_box(ours::thin_rulings(ink, width, height, run_min, thick_max, &mut words, 2 * height));
            },
        );
    }
    bench_cuts(bench);
}

/// Both cut masks made and labelled, with the same limits, noise on pages small enough that neither has too many components.
fn bench_cuts(bench: &mut Bench) {
    let (run_min, thick_max) = (76u32, 6u32);
    for kind in bench.kinds() {
        let (width, height) = match kind {
            Kind::Noise(70) => (1024, 1024),
            _ => (2048, 3072),
        };
        let ink = kind.page(width, height, &mut Random::new());
        let mut words = vec![1; scratch_words(ink.len(), MOST_CAPACITY as usize)];
        let mut counts = [1; 2];
        bench.stage(
            "cuts",
            &kind.to_string(),
            || {
                black_box(rust_counts(black_box(&ink), width, run_min as usize, thick_max as usize));
            },
            || {
                let (width, height) = (width as u32, height as u32);
                let ink = black_box(&ink);
                let number =
                    ours::cut_rulings(ink, width, height, run_min, thick_max, MOST_CAPACITY, &mut words, &mut counts);
                assert!(black_box(number) == 0, "{kind} is refused by {number}");
            },
        );
    }
}

/// Nothing yet: the gate replays thin rulings with the whole segmentation.
fn list(_: &mut List) {}
