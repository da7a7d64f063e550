//! The show program's cases of the list that the gate replays: an input, and the bytes that the model prints for it.

use super::making::{self, good_leaf, written, ABOVE_1, ABOVE_45, NANS};
use super::model::{self, Leaf, MOST_SIDE};
use super::spoiling::{longer, WAYS};
use crate::list::List;
use crate::random::Random;

const KIND: u8 = 0x0E;

/// Document 01's leaf, whose sheet it prints.
const LEAF: &[u8] = b"0006000400000000000000000000000000000000\n00\n50\n50\n00\n";

/// The greatest f64 below 1 and below 45.
const BELOW_1: f64 = f64::from_bits(0x3FEF_FFFF_FFFF_FFFF);
const BELOW_45: f64 = f64::from_bits(0x4046_7FFF_FFFF_FFFF);

/// How many large leaves, those with upright rulings, crowded ones, and spoiled inputs a way.
const LARGE: usize = 48;
const UPRIGHT: usize = 24;
const CROWDED: usize = 20;
const SPOILED: usize = 6;

/// Bytes beside the digits, and others that a reader of numbers may take; and places in the leaf: ends of its fields, digits of rows.
const BESIDE: &[u8] = b"/:@G`afg+- \r\n\0\xff";
const PLACES: [usize; 6] = [0, 7, 8, 39, 41, 51];

/// A spoiled input that is longer is left out, which keeps the list short.
const MOST_SPOILED: usize = 300;

/// A leaf of these values, its page always the same.
fn valued(skew: f64, slope: f64) -> Vec<u8> {
    let mask = vec![1, 1, 0, 1, 0, 1, 0, 0, 1, 0, 0, 0, 0, 0, 0, 1, 1, 1, 0, 1];
    let (width, height) = (5, 4);
    written(&Leaf {
        width,
        height,
        skew,
        slope,
        mask,
    })
}

/// Skews and slopes at their limits and past them. The first two are document 01's "Skew 45 passes, the next f64 above is 4".
fn values(all: &mut Vec<Vec<u8>>) {
    let skews = [
        45.0,
        ABOVE_45,
        -45.0,
        -ABOVE_45,
        BELOW_45,
        0.0,
        -0.0,
        f64::MIN_POSITIVE,
        f64::from_bits(1),
        90.0,
    ];
    let slopes = [
        1.0,
        ABOVE_1,
        -1.0,
        -ABOVE_1,
        BELOW_1,
        -BELOW_1,
        0.0,
        -0.0,
        f64::MIN_POSITIVE,
        -f64::from_bits(1),
        2.0,
    ];
    let ends = [f64::MAX, f64::MIN, f64::INFINITY, f64::NEG_INFINITY];
    for skew in skews.into_iter().chain(ends).chain(NANS) {
        all.push(valued(skew, 0.25));
    }
    for slope in slopes.into_iter().chain(ends).chain(NANS) {
        all.push(valued(-3.0, slope));
    }
    for (skew, slope) in [
        (f64::NAN, f64::NAN),
        (46.0, 2.0),
        (ABOVE_45, ABOVE_1),
        (45.0, 1.0),
        (-45.0, -1.0),
    ] {
        all.push(valued(skew, slope));
    }
}

/// Sides of 0, and above 16, with the rows that they ask; values within their limits and past them.
fn sides(all: &mut Vec<Vec<u8>>) {
    let none: [(usize, usize); 7] = [(0, 0), (0, 1), (1, 0), (0, 3), (16, 0), (0, 16), (7, 0)];
    let large = [
        (17, 1),
        (1, 17),
        (17, 17),
        (0, 17),
        (17, 0),
        (32, 2),
        (256, 1),
        (65_535, 0),
        (0, 65_535),
    ];
    for (width, height) in none.into_iter().chain(large) {
        for (skew, slope) in [(0f64, 0f64), (f64::NAN, 2.0)] {
            let head = format!(
                "{width:04X}{height:04X}{:016X}{:016X}\n",
                skew.to_bits(),
                slope.to_bits()
            );
            let row = "0".repeat(width.div_ceil(4)) + "\n";
            let input = head + &row.repeat(height.min(MOST_SIDE + 1));
            all.push(input.into_bytes());
        }
    }
}

/// Leaves of every shape, large ones of many lines, blocks and rulings, those whose unit falls with the cut, and those with more pieces
/// than P or almost as many.
fn leaves(all: &mut Vec<Vec<u8>>, random: &mut Random) {
    for width in 1..=MOST_SIDE {
        for height in 1..=MOST_SIDE {
            all.push(written(&good_leaf(random, width, height)));
        }
    }
    for _ in 0..LARGE {
        let (width, height) = (12 + random.below(5) as usize, 12 + random.below(5) as usize);
        all.push(written(&good_leaf(random, width, height)));
    }
    for _ in 0..UPRIGHT {
        all.push(written(&making::upright(random)));
    }
    for _ in 0..CROWDED {
        all.push(written(&making::crowded(random)));
    }
}

/// Inputs that are not well made: document 01's leaf cut off at every place, or with a byte that is no digit; leaves spoiled in every
/// way, and long ones.
fn spoiled(all: &mut Vec<Vec<u8>>, random: &mut Random) {
    for end in 0..LEAF.len() {
        all.push(LEAF[..end].to_vec());
    }
    for at in PLACES {
        all.extend(BESIDE.iter().map(|&byte| {
            let mut input = LEAF.to_vec();
            input[at] = byte;
            input
        }));
    }
    for way in WAYS {
        for _ in 0..SPOILED {
            let (width, height) = (1 + random.below(9) as usize, 1 + random.below(5) as usize);
            let mut input = written(&good_leaf(random, width, height));
            way(random, &mut input);
            if input.len() <= MOST_SPOILED {
                all.push(input);
            }
        }
    }
    for _ in 0..4 {
        let mut input = LEAF.to_vec();
        longer(random, &mut input, 5000);
        all.push(input);
    }
}

/// All inputs of the list.
pub fn inputs() -> Vec<Vec<u8>> {
    let mut random = Random::new();
    let mut all = vec![LEAF.to_vec()];
    values(&mut all);
    sides(&mut all);
    leaves(&mut all, &mut random);
    spoiled(&mut all, &mut random);
    all
}

pub fn list(list: &mut List) {
    for input in inputs() {
        list.bytes(KIND, &[&input, &model::show(&input).printed]);
    }
}
