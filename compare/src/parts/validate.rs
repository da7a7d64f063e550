//! `LayoutParams::validate`: valid sheets, each field at each of its limits and beside it, and several fields changed.

use original::pixel::layout::LayoutParams;

use super::Part;
use crate::bench::Bench;
use crate::list::List;
use crate::ours;
use crate::random::Random;
use crate::tally::Tally;

pub const PART: Part = Part {
    name: "validate",
    compare,
    bench,
    list,
};

const FIELDS: usize = 18;

/// Which fields are numbers of dots and not floats: `glyph_min_area`, `xheight_min_area`, `line_min_glyphs`.
const WHOLE: [usize; 3] = [0, 2, 9];
const XHEIGHT_FALLBACK_PX: usize = 3;
const GLYPH_MAX_EXTENT_FRAC: usize = 1;
const LINE_MIN_HEIGHT_XH: usize = 10;
const LINE_MAX_HEIGHT_XH: usize = 11;
const BLOCK_MIN_OVERLAP: usize = 12;
const COLUMN_COVER_FRAC: usize = 16;

/// A sheet as words, in the order of its fields: a float's bits, or the number.
pub type Words = [u64; FIELDS];

pub fn sheet(w: &Words) -> LayoutParams {
    let float = |i: usize| f64::from_bits(w[i]);
    LayoutParams {
        glyph_min_area: w[0] as u32,
        glyph_max_extent_frac: float(1),
        xheight_min_area: w[2] as u32,
        xheight_fallback_px: float(3),
        rule_min_len_xh: float(4),
        rule_max_thick_xh: float(5),
        rule_run_xh: float(6),
        graphic_min_xh: float(7),
        smear_xh: float(8),
        line_min_glyphs: w[9] as u32,
        line_min_height_xh: float(10),
        line_max_height_xh: float(11),
        block_min_overlap: float(12),
        block_gap_margin_lines: float(13),
        block_max_gap_lines: float(14),
        column_gap_xh: float(15),
        column_cover_frac: float(16),
        shear_min_deg: float(17),
    }
}

/// A random sheet that is valid.
pub fn valid(random: &mut Random) -> Words {
    let mut w = [0; FIELDS];
    for (i, word) in w.iter_mut().enumerate() {
        let most = if random.below(4) == 0 { 1e4 } else { 20.0 };
        let fraction = random.fraction();
        *word = match i {
            _ if WHOLE.contains(&i) => 1 + random.below(100),
            GLYPH_MAX_EXTENT_FRAC => (1.0 - fraction).to_bits(),
            XHEIGHT_FALLBACK_PX => (1.0 + fraction * (most - 1.0)).to_bits(),
            BLOCK_MIN_OVERLAP | COLUMN_COVER_FRAC => fraction.to_bits(),
            _ => (fraction * most).to_bits(),
        };
    }
    let (low, high) = (
        f64::from_bits(w[LINE_MIN_HEIGHT_XH]),
        f64::from_bits(w[LINE_MAX_HEIGHT_XH]),
    );
    w[LINE_MIN_HEIGHT_XH] = low.min(high).to_bits();
    w[LINE_MAX_HEIGHT_XH] = low.max(high).to_bits();
    w
}

/// The document's own sheet of the show program: every field well inside its limits but for those at an end.
pub fn plain() -> Words {
    let floats = [
        1.0f64, 1.0, 4.0, 0.5, 4.0, 8.0, 1.0, 0.5, 3.0, 0.5, 0.5, 3.0, 1.0, 0.0, 0.0,
    ];
    let mut left = floats.iter();
    let mut w = [1; FIELDS];
    for (i, word) in w.iter_mut().enumerate() {
        if !WHOLE.contains(&i) {
            *word = left.next().expect("fifteen floats").to_bits();
        }
    }
    w
}

/// The limits of a float field, each with its neighbours, and the numbers that are none.
pub fn limits() -> Vec<u64> {
    let mut all = Vec::new();
    for x in [0.0, 0.5, 1.0, 1.0e4] {
        let bits = f64::to_bits(x);
        for near in [bits.saturating_sub(1), bits, bits + 1] {
            all.push(near);
            all.push(near | 1 << 63);
        }
    }
    for x in [
        f64::MIN_POSITIVE,
        2.0,
        9999.0,
        10001.0,
        1e300,
        f64::MAX,
        f64::INFINITY,
        f64::NAN,
    ] {
        all.push(x.to_bits());
        all.push((-x).to_bits());
    }
    // a signalling NaN, and a NaN of all ones
    all.extend([0x7FF0_0000_0000_0001, 0xFFF0_0000_0000_0001, u64::MAX]);
    all.sort_unstable();
    all.dedup();
    all
}

fn numbers() -> [u64; 6] {
    [0, 1, 2, 0x7FFF_FFFF, 0x8000_0000, 0xFFFF_FFFF]
}

/// Hands on a sheet with one field at each of its limits.
fn at_limits(base: &Words, each: &mut impl FnMut(&Words)) {
    let limits = limits();
    for i in 0..FIELDS {
        let changes: &[u64] = if WHOLE.contains(&i) { &numbers() } else { &limits };
        for &change in changes {
            let mut w = *base;
            w[i] = change;
            each(&w);
        }
    }
}

/// Hands on sheets whose two line heights are equal, or differ by the last digit either way.
fn line_heights(base: &Words, x: f64, each: &mut impl FnMut(&Words)) {
    let bits = x.to_bits();
    for low in [bits.saturating_sub(1), bits, bits + 1] {
        let mut w = *base;
        w[LINE_MIN_HEIGHT_XH] = low;
        w[LINE_MAX_HEIGHT_XH] = bits;
        each(&w);
    }
    // the zeros are equal to each other
    for pair in [[0, 1 << 63], [1 << 63, 0]] {
        let mut w = *base;
        w[LINE_MIN_HEIGHT_XH] = pair[0];
        w[LINE_MAX_HEIGHT_XH] = pair[1];
        each(&w);
    }
}

/// A valid sheet with a few fields set to limits or to anything.
pub fn mutated(random: &mut Random, limits: &[u64]) -> Words {
    let mut w = valid(random);
    for _ in 0..1 + random.below(4) {
        let i = random.below(FIELDS as u64) as usize;
        w[i] = if WHOLE.contains(&i) {
            random.pick(&numbers())
        } else if random.below(3) == 0 {
            random.next()
        } else {
            random.pick(limits)
        };
    }
    w
}

fn one(tally: &mut Tally, w: &Words) {
    let sheet = sheet(w);
    tally.equal("validate", sheet.validate().is_ok(), ours::validate(&sheet), || {
        format!("{sheet:?}")
    });
}

fn compare(tally: &mut Tally) {
    let mut random = Random::new();
    let limits = limits();
    for _ in 0..100_000 {
        one(tally, &valid(&mut random));
    }
    at_limits(&plain(), &mut |w| one(tally, w));
    for _ in 0..200 {
        let base = valid(&mut random);
        at_limits(&base, &mut |w| one(tally, w));
        let x = f64::from_bits(base[LINE_MAX_HEIGHT_XH]);
        line_heights(&base, x, &mut |w| one(tally, w));
    }
    for _ in 0..500_000 {
        one(tally, &mutated(&mut random, &limits));
    }
}

/// Nothing to time: a sheet is tested once a page.
fn bench(_: &mut Bench) {}

fn list(list: &mut List) {
    let mut random = Random::new();
    let limits = limits();
    let mut each = |w: &Words| {
        let mut words = w.to_vec();
        words.push(u64::from(sheet(w).validate().is_ok()));
        list.case(0x08, &words);
    };
    each(&plain());
    at_limits(&plain(), &mut each);
    line_heights(&plain(), 3.0, &mut each);
    for _ in 0..40 {
        each(&valid(&mut random));
        each(&mutated(&mut random, &limits));
    }
}

#[cfg(test)]
mod tests {
    use super::*;

    #[test]
    fn the_valid_sheets_are_valid() {
        let mut random = Random::new();
        for _ in 0..10_000 {
            assert!(sheet(&valid(&mut random)).validate().is_ok());
        }
        assert!(sheet(&plain()).validate().is_ok());
    }
}
