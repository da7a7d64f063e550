//! `pairwise_sum`, on every length to 70, around each length at which a further halving sets in, and on random lengths to
//! 10,000.

use std::hint::black_box;

use original::math;

use super::Part;
use crate::bench::Bench;
use crate::list::{answer, List};
use crate::ours;
use crate::random::Random;
use crate::tally::Tally;

pub const PART: Part = Part {
    name: "sums",
    compare,
    bench,
    list,
};

/// What the values of a vector are.
#[derive(Clone, Copy, Debug)]
enum Kind {
    /// Of one size, of both signs.
    Even,
    /// Of every size: the order of the sums shows in the last digit.
    Sizes,
    /// Each with its negative somewhere, so that what is left is the rounding.
    Cancelling,
    /// Zeros of both signs.
    Zeros,
    /// Near the largest, so that sums overflow.
    Huge,
    /// Subnormal.
    Tiny,
    /// With infinities, NaNs, zeros and the ends among them.
    Hostile,
    /// Any patterns of bits.
    Patterns,
}

const KINDS: [Kind; 8] = [
    Kind::Even,
    Kind::Sizes,
    Kind::Cancelling,
    Kind::Zeros,
    Kind::Huge,
    Kind::Tiny,
    Kind::Hostile,
    Kind::Patterns,
];

fn value(random: &mut Random, kind: Kind) -> f64 {
    let sign = random.pick(&[-1.0, 1.0]);
    let even = sign * random.fraction();
    match kind {
        Kind::Even | Kind::Cancelling => even,
        Kind::Sizes => even * 2f64.powi(random.below(120) as i32 - 60),
        Kind::Zeros => sign * 0.0,
        Kind::Huge => sign * f64::MAX * (0.5 + random.fraction() / 2.0),
        Kind::Tiny => sign * f64::from_bits(random.below(1 << 52)),
        Kind::Hostile => match random.below(40) {
            0 => sign * f64::INFINITY,
            1 => f64::NAN,
            2 => f64::from_bits(0xFFF0_0000_0000_0001),
            3..=8 => sign * 0.0,
            9..=12 => sign * f64::MAX,
            13..=16 => sign * f64::from_bits(1),
            17..=20 => sign * f64::MIN_POSITIVE,
            _ => even,
        },
        Kind::Patterns => random.pattern(),
    }
}

fn fill(random: &mut Random, kind: Kind, length: usize, values: &mut Vec<f64>) {
    values.clear();
    values.extend((0..length).map(|_| value(random, kind)));
    if matches!(kind, Kind::Cancelling) {
        for i in length / 2..length {
            values[i] = -values[length - 1 - i];
        }
    }
}

fn one(tally: &mut Tally, random: &mut Random, kind: Kind, length: usize, values: &mut Vec<f64>) {
    fill(random, kind, length, values);
    tally.float(
        "pairwise_sum",
        math::pairwise_sum(values),
        ours::pairwise_sum(values),
        || {
            let bits: Vec<String> = values
                .iter()
                .take(20)
                .map(|v| format!("{:016X}", v.to_bits()))
                .collect();
            format!("{length} values, {kind:?}: {}", bits.join(" "))
        },
    );
}

fn compare(tally: &mut Tally) {
    let mut random = Random::new();
    let mut values = Vec::new();
    for length in 0..=70 {
        for kind in KINDS {
            for _ in 0..1500 {
                one(tally, &mut random, kind, length, &mut values);
            }
        }
    }
    // a further halving sets in one above 8 * 2^k
    for k in 0..11 {
        for length in (8usize << k) - 3..=(8 << k) + 3 {
            for kind in KINDS {
                one(tally, &mut random, kind, length, &mut values);
            }
        }
    }
    for _ in 0..4000 {
        let length = random.below(10_001) as usize;
        let kind = random.pick(&KINDS);
        one(tally, &mut random, kind, length, &mut values);
    }
}

/// Both sides are timed by the call, as in `rounding.rs`; the short sums many to a turn.
fn bench(bench: &mut Bench) {
    let mut random = Random::new();
    for (page, length, times) in [
        ("length-8", 8, 5000),
        ("length-70", 70, 1000),
        ("length-10000", 10_000, 20),
    ] {
        let mut values = Vec::new();
        fill(&mut random, Kind::Even, length, &mut values);
        bench.stage(
            "pairwise_sum",
            page,
            || calls(&values, times, rust_pairwise_sum),
            || calls(&values, times, ours::pairwise_sum),
        );
    }
}

#[inline(never)]
fn rust_pairwise_sum(values: &[f64]) -> f64 {
    math::pairwise_sum(values)
}

#[inline(always)]
fn calls(values: &[f64], times: u32, f: impl Fn(&[f64]) -> f64) {
    for _ in 0..times {
        black_box(f(black_box(values)));
    }
}

/// Document 01's "Nine values: four and five": their sum is 0 where the first four and the last five are added by themselves, and 2 or
/// more where they are split anywhere else or go left to right.
const NINE: [f64; 9] = [1.0, LARGE, 2.0, 2.0, -LARGE, 1.0, -1.0, 1.0, 1.0];

/// 2^54.
const LARGE: f64 = 18_014_398_509_481_984.0;

/// A case: the values, then their sum.
fn sum_case(list: &mut List, values: &[f64]) {
    let mut words: Vec<u64> = values.iter().map(|v| v.to_bits()).collect();
    words.push(answer(math::pairwise_sum(values)));
    list.case(0x07, &words);
}

fn list(list: &mut List) {
    let mut random = Random::new();
    let mut values = Vec::new();
    sum_case(list, &NINE);
    let mut case = |kind: Kind, length: usize| {
        fill(&mut random, kind, length, &mut values);
        sum_case(list, &values);
    };
    for length in 0..=70 {
        case(Kind::Sizes, length);
    }
    for length in [0, 1, 2, 7, 8, 9, 10, 15, 16, 17, 18, 32, 33] {
        for kind in KINDS {
            case(kind, length);
        }
    }
    for length in [127, 128, 129, 500] {
        case(Kind::Sizes, length);
    }
}

#[cfg(test)]
mod tests {
    use super::*;

    /// The nine values tell where a sum of nine is split.
    #[test]
    fn nine_values() {
        let added = |values: &[f64]| values.iter().fold(0.0, |sum, value| sum + value);
        let split = |at: usize| added(&NINE[..at]) + added(&NINE[at..]);
        assert_eq!(math::pairwise_sum(&NINE), 0.0);
        let zeros: Vec<usize> = (0..=9).filter(|&at| split(at) == 0.0).collect();
        assert_eq!(zeros, [4]);
    }
}
