//! Masks for the functions that are called by themselves, labelling and run extents: all small ones, random ones, large ones,
//! and document 01's limits.

use crate::pages::{Kind, KINDS};
use crate::random::Random;

/// Document 01's limits of a mask.
pub const MOST_SIDE: u32 = 131_072;
pub const MOST_DOTS: u64 = 1 << 30;

/// How many random masks a part takes.
pub const RANDOM_MASKS: u32 = 120_000;

/// Shapes of large masks, up to the longest sides.
pub const LARGE_SHAPES: [(usize, usize); 7] = [
    (1000, 700),
    (2048, 3072),
    (MOST_SIDE as usize, 1),
    (1, MOST_SIDE as usize),
    (MOST_SIDE as usize, 9),
    (7, MOST_SIDE as usize),
    (65_537, 20),
];

/// Sides at the limits and beside them, those at which a count of dots is at its limit among them.
pub const SIDES: [u32; 16] = [
    0,
    1,
    2,
    8191,
    8192,
    8193,
    32_767,
    32_768,
    32_769,
    65_535,
    65_536,
    MOST_SIDE - 1,
    MOST_SIDE,
    MOST_SIDE + 1,
    1 << 31,
    u32::MAX,
];

/// Document 01's number for a mask of this length and sides: 1, 2 or none.
pub fn refusal(length: usize, width: u32, height: u32) -> Option<u32> {
    let outside = |side: u32| !(1..=MOST_SIDE).contains(&side);
    let dots = u64::from(width) * u64::from(height);
    if outside(width) || outside(height) || dots > MOST_DOTS {
        Some(1)
    } else if length as u64 != dots {
        Some(2)
    } else {
        None
    }
}

/// Hands on every mask of up to four by four and its width, the small ones first: with ink of 1, and with ink of any byte.
pub fn every_small_mask(random: &mut Random, each: &mut impl FnMut(&mut Random, &[u8], usize)) {
    for width in 1..=4usize {
        for height in 1..=4usize {
            for pattern in 0..1u32 << (width * height) {
                let mut mask: Vec<u8> = (0..width * height).map(|i| (pattern >> i & 1) as u8).collect();
                each(random, &mask, width);
                vary(&mut mask, random);
                each(random, &mask, width);
            }
        }
    }
}

/// Hands on random masks with sides up to 40: of every kind, and of every density.
pub fn random_masks(random: &mut Random, each: &mut impl FnMut(&mut Random, &[u8], usize)) {
    for _ in 0..RANDOM_MASKS {
        let (width, height) = (1 + random.below(40) as usize, 1 + random.below(40) as usize);
        let kind = if random.below(3) == 0 {
            random.pick(&KINDS)
        } else {
            Kind::Noise(1 + random.below(99) as u8)
        };
        let mut mask = kind.page(width, height, random);
        if random.below(2) == 0 {
            vary(&mut mask, random);
        }
        each(random, &mask, width);
    }
}

/// Lengths of runs and gaps: short ones, and those around the blocks of dots that the code takes at once.
const LENGTHS: [usize; 16] = [1, 1, 2, 3, 5, 16, 31, 32, 33, 63, 64, 65, 127, 128, 129, 160];

/// A wide mask whose runs and gaps begin and end at, before and past the edges of such blocks; every third row is like the one above but
/// for a few dots, so that pieces go on.
pub fn crossing(width: usize, height: usize, random: &mut Random) -> Vec<u8> {
    let mut mask = Vec::with_capacity(width * height);
    for y in 0..height {
        let from = mask.len();
        if y % 3 == 2 {
            mask.extend_from_within(from - width..);
            for _ in 0..3 {
                mask[from + random.below(width as u64) as usize] ^= 1;
            }
        }
        let mut ink = random.below(2) as u8;
        while mask.len() < from + width {
            let length = random.pick(&LENGTHS).min(from + width - mask.len());
            mask.resize(mask.len() + length, ink);
            ink = 1 - ink;
        }
    }
    mask
}

/// The mask with rows for columns.
pub fn turned(mask: &[u8], width: usize) -> Vec<u8> {
    let height = mask.len() / width;
    (0..mask.len()).map(|i| mask[i % height * width + i / height]).collect()
}

/// Ink of any byte but 0.
fn vary(mask: &mut [u8], random: &mut Random) {
    for dot in mask.iter_mut().filter(|dot| **dot != 0) {
        *dot = random.pick(&[1, 2, 3, 127, 128, 254, 255]);
    }
}

/// A mask as its rows, or its size where it is large.
pub fn shown(mask: &[u8], width: usize) -> String {
    if mask.len() > 1600 {
        return format!("{width} x {}", mask.len() / width);
    }
    let rows: Vec<String> = mask
        .chunks(width)
        .map(|row| row.iter().map(|&v| if v == 0 { '0' } else { '1' }).collect())
        .collect();
    rows.join("/")
}

/// A length, one below it, one above it, and 0.
pub fn near(length: usize) -> [usize; 4] {
    [0, length.saturating_sub(1), length, length + 1]
}
