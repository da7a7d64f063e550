//! Inputs of the show program: leaves of every shape and many kinds, at slopes of both signs; those with more pieces than P; values and
//! sides outside their limits; and inputs that are not well made.

use original::level_mask;

use super::model::{show_sheet, Leaf, MOST_SIDE};
use super::spoiling;
use crate::pages::{Kind, KINDS};
use crate::random::Random;

/// The least f64 above 45 and above 1.
pub const ABOVE_45: f64 = f64::from_bits(0x4046_8000_0000_0001);
pub const ABOVE_1: f64 = f64::from_bits(0x3FF0_0000_0000_0001);

/// NaNs: the plain one, one of the other sign, and two with other payloads.
pub const NANS: [f64; 4] = [
    f64::NAN,
    f64::from_bits(0xFFF8_0000_0000_0000),
    f64::from_bits(0x7FF0_0000_0000_0001),
    f64::from_bits(0xFFFF_FFFF_FFFF_FFFF),
];

const BAD_SKEWS: [f64; 7] = [
    ABOVE_45,
    -ABOVE_45,
    45.5,
    -90.0,
    1e300,
    f64::INFINITY,
    f64::NEG_INFINITY,
];
const BAD_SLOPES: [f64; 7] = [ABOVE_1, -ABOVE_1, 1.5, -2.0, -1e300, f64::INFINITY, f64::NEG_INFINITY];

/// Slopes at which a drift is a half, ends, and zeros of both signs.
const SLOPES: [f64; 12] = [0.0, -0.0, 1.0, -1.0, 0.5, -0.5, 0.25, -0.25, 0.0625, -0.0625, 0.1, -0.1];

const SKEWS: [f64; 8] = [0.0, -0.0, 45.0, -45.0, 1.5, -1.5, f64::MIN_POSITIVE, -1e-300];

pub struct Making {
    random: Random,
    leaves: usize,
}

impl Making {
    pub fn new() -> Self {
        Making {
            random: Random::new(),
            leaves: 0,
        }
    }

    /// The input that is made at turn i: of sixteen one has upright rulings, one many pieces, one bad values, one a side of 0, four are
    /// not well made, and the others are good leaves of every shape.
    pub fn input(&mut self, i: usize) -> Vec<u8> {
        match i % 16 {
            0..=11 => self.well_made(i % 16),
            _ => {
                let way = self.random.below(12) as usize;
                let mut input = self.well_made(way);
                spoiling::spoil(&mut self.random, &mut input);
                input
            }
        }
    }

    fn well_made(&mut self, way: usize) -> Vec<u8> {
        let random = &mut self.random;
        match way {
            8 => written(&upright(random)),
            9 => written(&crowded(random)),
            10 => written(&out_of_limits(random)),
            11 => written(&no_side(random)),
            _ => {
                // one shape after the other
                let (width, height) = (1 + self.leaves % MOST_SIDE, 1 + self.leaves / MOST_SIDE % MOST_SIDE);
                self.leaves += 1;
                written(&good_leaf(random, width, height))
            }
        }
    }
}

/// The input that says a leaf.
pub fn written(leaf: &Leaf) -> Vec<u8> {
    let (skew, slope) = (leaf.skew.to_bits(), leaf.slope.to_bits());
    let mut lines = vec![format!(
        "{:04X}{:04X}{skew:016X}{slope:016X}\n",
        leaf.width, leaf.height
    )];
    lines.extend((0..leaf.height).map(|y| {
        let row = &leaf.mask[y * leaf.width..(y + 1) * leaf.width];
        let digit = |dots: &[u8]| (0..4).fold(0, |d, i| 2 * d + dots.get(i).copied().unwrap_or(0));
        let digits: String = row.chunks(4).map(|dots| format!("{:X}", digit(dots))).collect();
        digits + "\n"
    }));
    lines.concat().into_bytes()
}

pub fn good_skew(random: &mut Random) -> f64 {
    match random.below(2) {
        0 => random.pick(&SKEWS),
        _ => 90.0 * random.fraction() - 45.0,
    }
}

pub fn good_slope(random: &mut Random) -> f64 {
    let sign = random.pick(&[-1.0, 1.0]);
    match random.below(4) {
        0 => random.pick(&SLOPES),
        1 => 0.0,
        2 => sign * random.fraction() * 0.2,
        _ => sign * random.fraction(),
    }
}

/// A value outside its limit, or any pattern of bits at all.
fn bad(random: &mut Random, choices: &[f64]) -> f64 {
    match random.below(4) {
        0 => random.pick(&NANS),
        1 => random.pattern(),
        _ => random.pick(choices),
    }
}

pub fn good_leaf(random: &mut Random, width: usize, height: usize) -> Leaf {
    Leaf {
        width,
        height,
        skew: good_skew(random),
        slope: good_slope(random),
        mask: any_page(random, width, height),
    }
}

/// A leaf whose skew or slope or both are outside their limits.
fn out_of_limits(random: &mut Random) -> Leaf {
    let (width, height) = (any_side(random), any_side(random));
    let mut leaf = good_leaf(random, width, height);
    let which = random.below(4);
    if which < 2 {
        leaf.skew = bad(random, &BAD_SKEWS);
    }
    if which > 0 {
        leaf.slope = bad(random, &BAD_SLOPES);
    }
    leaf
}

/// A leaf with a side of 0, or two; its skew and slope within their limits or not.
fn no_side(random: &mut Random) -> Leaf {
    let mut leaf = out_of_limits(random);
    match random.below(3) {
        0 => leaf.width = 0,
        1 => leaf.height = 0,
        _ => (leaf.width, leaf.height) = (0, 0),
    }
    leaf.mask.clear();
    if random.below(2) == 0 {
        (leaf.skew, leaf.slope) = (good_skew(random), good_slope(random));
    }
    leaf
}

pub fn any_side(random: &mut Random) -> usize {
    1 + random.below(MOST_SIDE as u64) as usize
}

/// A page of dots that are one piece each in the levelled frame, as many as find room when they are set one after the other; a few are
/// then left out. A slope moves dots apart, so that more find room than the 64 of a level page.
pub fn crowded(random: &mut Random) -> Leaf {
    let (width, height) = (
        MOST_SIDE - random.below(2) as usize,
        MOST_SIDE - random.below(2) as usize,
    );
    let any = random.fraction();
    let slope = random.pick(&[-1.0, 1.0]) * random.pick(&[1.0, 0.95, 0.9, 0.75, 0.6, 0.5, any]);
    let frame = level_mask(vec![1; width * height], width, height, 0.0, slope, &show_sheet());
    let place = |dot: usize| {
        let row = dot / width + frame.shear[dot % width] as usize;
        (dot % width + frame.shear_x[row] as usize, row)
    };
    let mut order: Vec<usize> = (0..width * height).collect();
    let way = random.below(4);
    order.sort_by_key(|&dot| match (way, place(dot)) {
        (0, (x, y)) => (y, x),
        (1, (x, y)) => (x, y),
        (2, (x, y)) => (y, frame.width - x),
        (_, (x, y)) => (frame.width - x, y),
    });
    let mut set: Vec<(usize, usize)> = Vec::new();
    let mut mask = vec![0; width * height];
    for dot in order {
        let (x, y) = place(dot);
        let apart = |&(a, b): &(usize, usize)| a.abs_diff(x) > 1 || b.abs_diff(y) > 1;
        if set.iter().all(apart) && random.below(60) > 0 {
            set.push((x, y));
            mask[dot] = 1;
        }
    }
    let skew = good_skew(random);
    Leaf {
        width,
        height,
        skew,
        slope,
        mask,
    }
}

/// A leaf with upright rulings among low glyphs: once these are cut, the unit falls, and a run that was too short to be cut by the first
/// unit is a rule piece by the second.
pub fn upright(random: &mut Random) -> Leaf {
    let (width, height) = (15 + below(random, 2), 14 + below(random, 3));
    let mut page = Page::new(width, height);
    let (rulings, length) = (2 + below(random, 2), 11 + below(random, height - 11));
    for k in 0..rulings {
        page.bar(2 * k, 0, 2 * k + 1, length);
    }
    let (left, run, lies) = (2 * rulings, 7 + below(random, 6), random.below(2) == 0);
    if lies {
        page.bar(left, 0, left + run, 1);
    } else {
        page.bar(width - 1, 0, width, run);
    }
    let (low, high) = (1 + below(random, 3), 1 + below(random, 2));
    for k in 0..low + high {
        let (x, y) = (left + k % 4 * 2, 2 + k / 4 * 4);
        page.bar(x, y, x + 1, y + if k < low { 2 } else { 3 });
    }
    let slope = good_slope(random);
    Leaf {
        width,
        height,
        skew: good_skew(random),
        slope: random.pick(&[0.0, 0.0, 0.01, -0.01, slope]),
        mask: page.mask,
    }
}

/// A page to draw on.
struct Page {
    width: usize,
    height: usize,
    mask: Vec<u8>,
}

impl Page {
    fn new(width: usize, height: usize) -> Self {
        Page {
            width,
            height,
            mask: vec![0; width * height],
        }
    }

    /// A box of ink, its far ends excluded, what lies off the page left out.
    fn bar(&mut self, x0: usize, y0: usize, x1: usize, y1: usize) {
        for y in y0..y1.min(self.height) {
            for x in x0..x1.min(self.width) {
                self.mask[y * self.width + x] = 1;
            }
        }
    }

    fn dot(&mut self, x: usize, y: usize) {
        self.bar(x, y, x + 1, y + 1);
    }
}

/// A number from 0, below `end`.
fn below(random: &mut Random, end: usize) -> usize {
    random.below(end as u64) as usize
}

/// A page: blank to full, of the comparison's own kinds, text, rulings, dust, and these together.
pub fn any_page(random: &mut Random, width: usize, height: usize) -> Vec<u8> {
    match random.below(10) {
        0 => return random.pick(&KINDS).page(width, height, random),
        1 => return Kind::Noise(random.below(101) as u8).page(width, height, random),
        2 => return Kind::Noise(1 + random.below(20) as u8).page(width, height, random),
        _ => {}
    }
    let mut page = Page::new(width, height);
    match random.below(8) {
        0 | 1 => lines(&mut page, random),
        2 | 3 => {
            lines(&mut page, random);
            rulings(&mut page, random);
        }
        4 => rulings(&mut page, random),
        5 => blocks(&mut page, random),
        6 => {
            blocks(&mut page, random);
            rulings(&mut page, random);
        }
        _ => dust(&mut page, random),
    }
    for _ in 0..random.below(3) {
        let (x, y) = (below(random, width), below(random, height));
        page.dot(x, y);
    }
    page.mask
}

/// A glyph of up to three by three dots at (x, y): a stem, and dots beside it that touch it.
fn glyph(page: &mut Page, random: &mut Random, x: usize, y: usize, wide: usize, high: usize) {
    page.bar(x, y, x + 1, y + high);
    for k in 1..wide {
        let from = y + below(random, high);
        page.bar(x + k, from, x + k + 1, y + high);
    }
}

/// Glyphs from column x to the end, on the line that starts in row y.
fn words(page: &mut Page, random: &mut Random, mut x: usize, end: usize, y: usize, high: usize) {
    while x < end {
        let wide = 1 + below(random, 3);
        let rise = usize::from(random.below(6) == 0).min(y);
        glyph(page, random, x, y - rise, wide.min(end - x), high + rise);
        x += wide + 1 + below(random, 2);
        if random.below(5) == 0 {
            x += 1 + below(random, 4);
        }
    }
}

/// Lines of text over the whole width.
fn lines(page: &mut Page, random: &mut Random) {
    let (high, mut y) = (1 + below(random, 3), below(random, 3));
    while y < page.height {
        let (from, short) = (below(random, 3), below(random, 4));
        words(page, random, from, page.width.saturating_sub(short), y, high);
        y += high + 1 + below(random, 3);
    }
}

/// Two or three columns of lines that start anywhere.
fn blocks(page: &mut Page, random: &mut Random) {
    let across = (page.width / (2 + below(random, 2))).max(1);
    let mut from = 0;
    while from < page.width {
        let (high, mut y) = (1 + below(random, 2), below(random, 4));
        while y < page.height {
            words(page, random, from, (from + across).saturating_sub(2), y, high);
            y += high + 1 + below(random, 5);
        }
        from += across;
    }
}

/// Rulings of both directions, one or two dots thick, that jog by a dot or stop short.
fn rulings(page: &mut Page, random: &mut Random) {
    for _ in 0..1 + random.below(3) {
        let (thick, jog) = (1 + usize::from(random.below(4) == 0), below(random, 2));
        if random.below(2) == 0 {
            let (y, from, turn) = (
                below(random, page.height),
                below(random, 4),
                below(random, page.width + 1),
            );
            let end = page.width.saturating_sub(below(random, 3));
            page.bar(from, y, turn, y + thick);
            page.bar(turn, y + jog, end, y + jog + thick);
        } else {
            let (x, from, turn) = (
                below(random, page.width),
                below(random, 4),
                below(random, page.height + 1),
            );
            let end = page.height.saturating_sub(below(random, 3));
            page.bar(x, from, x + thick, turn);
            page.bar(x + jog, turn, x + jog + thick, end);
        }
    }
}

/// Dots two or three apart, some of them missing.
fn dust(page: &mut Page, random: &mut Random) {
    let (step, chance) = (2 + below(random, 2), 1 + random.below(12));
    for y in (0..page.height).step_by(step) {
        for x in (0..page.width).step_by(step) {
            if random.below(chance) != 1 {
                page.dot(x, y);
            }
        }
    }
}
