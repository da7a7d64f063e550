//! The kind of a component by its size, and the limits of a thin ruling, by `segment`'s own lines: random valid sheets, and sheets
//! whose thresholds lie at a size or beside it by the last digit.

use original::pixel::components::Component;
use original::pixel::layout::{compare_kind, compare_limits, LayoutParams};

use super::validate::{sheet, valid};
use super::Part;
use crate::bench::Bench;
use crate::list::List;
use crate::ours;
use crate::random::Random;
use crate::tally::Tally;

pub const PART: Part = Part {
    name: "kinds",
    compare,
    bench,
    list,
};

/// A factor that brings the unit to `length`, as near as a float can, or a neighbour of that.
fn factor(random: &mut Random, length: f64, unit: f64) -> f64 {
    let bits = (length / unit).to_bits();
    let near = random.pick(&[bits.saturating_sub(1), bits, bits + 1]);
    f64::from_bits(near).min(1.0e4)
}

/// A component's size: its area, width and height.
fn size(random: &mut Random, most: u64) -> [u32; 3] {
    let (width, height) = (1 + random.below(most), 1 + random.below(most));
    let area = width.max(height) + random.below(width * height - width.max(height) + 1);
    [area as u32, width as u32, height as u32]
}

/// A valid sheet with thresholds at or near the sides of this size.
pub fn near_sheet(random: &mut Random, unit: f64, frame: (u32, u32), size: [u32; 3]) -> LayoutParams {
    let mut p = sheet(&valid(random));
    let sides = [f64::from(size[1]), f64::from(size[2])];
    for field in [
        &mut p.rule_min_len_xh,
        &mut p.rule_max_thick_xh,
        &mut p.graphic_min_xh,
    ] {
        if random.below(2) == 0 {
            let side = random.pick(&sides);
            *field = factor(random, side, unit);
        }
    }
    if random.below(2) == 0 {
        let side = random.below(2) as usize;
        let whole = f64::from([frame.0, frame.1][side]);
        p.glyph_max_extent_frac = factor(random, sides[side], whole).min(1.0);
    }
    if random.below(2) == 0 {
        p.glyph_min_area = (size[0] + random.below(3) as u32).saturating_sub(1).max(1);
    }
    assert!(p.validate().is_ok(), "{p:?}");
    p
}

/// The units that there are: a whole number where it was measured, any number from 1 to 10,000 where it was assumed.
fn unit(random: &mut Random) -> (bool, f64) {
    match random.below(4) {
        0 => (false, 1.0 + random.fraction() * 9999.0),
        1 => (false, 1.0 + random.fraction() * 30.0),
        2 => (true, (1 + random.below(16_383)) as f64),
        _ => (true, (1 + random.below(60)) as f64),
    }
}

fn kind(tally: &mut Tally, p: &LayoutParams, measured: bool, unit: f64, frame: (u32, u32), size: [u32; 3]) {
    let [area, width, height] = size;
    let component = Component {
        area,
        x0: 0,
        y0: 0,
        x1: width - 1,
        y1: height - 1,
        sum_x: 0,
        sum_y: 0,
    };
    let rust = compare_kind(&component, frame.0 as usize, frame.1 as usize, unit, p);
    let ours = ours::kind_by_size(p, measured, unit, frame, size);
    tally.equal("kind_by_size", rust, ours, || {
        format!("area {area}, {width} x {height}, frame {frame:?}, unit {unit:?}, {p:?}")
    });
}

fn limits(tally: &mut Tally, p: &LayoutParams, unit: f64) {
    let (run_min, thick_max) = compare_limits(unit, p);
    let input = || format!("unit {unit:?}, {} and {}", p.rule_run_xh, p.rule_max_thick_xh);
    tally.equal(
        "run_min and thick_max",
        (run_min as u64, thick_max as u64),
        {
            let (a, b) = ours::limits(p, unit);
            (u64::from(a), u64::from(b))
        },
        input,
    );
}

fn compare(tally: &mut Tally) {
    let mut random = Random::new();
    for _ in 0..1_000_000 {
        let most = random.pick(&[3, 20, 300, 5000]);
        let size = size(&mut random, most);
        let frame = (size[1] + random.below(3000) as u32, size[2] + random.below(3000) as u32);
        let (measured, unit) = unit(&mut random);
        let p = if random.below(3) == 0 {
            sheet(&valid(&mut random))
        } else {
            near_sheet(&mut random, unit, frame, size)
        };
        kind(tally, &p, measured, unit, frame, size);
        limits(tally, &p, unit);
    }
    // products at a half and beside it
    for _ in 0..300_000 {
        let (_, unit) = unit(&mut random);
        let mut p = sheet(&valid(&mut random));
        let half = random.below(2000) as f64 + 0.5;
        p.rule_run_xh = factor(&mut random, half, unit);
        p.rule_max_thick_xh = factor(&mut random, half, unit);
        limits(tally, &p, unit);
    }
}

/// Nothing to time: a kind is told once a component.
fn bench(_: &mut Bench) {}

/// Nothing yet: the gate replays kinds with the whole segmentation.
fn list(_: &mut List) {}
