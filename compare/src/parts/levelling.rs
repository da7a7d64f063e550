//! Levelling and the way back: every page up to twelve by twelve with a grid of slopes, random pages, large pages; the frame, both
//! shears, the ink plane, `level_gray`, `to_page` and `rect_to_page`. The reference is `segment`'s own lines that level the mask
//! (`original::level_mask`), which are held to `segment` itself on the small pages, and the methods of its `Layout`.

use std::hint::black_box;

use original::pixel::layout::{Layout, LayoutParams, Rect};
use original::{level_mask, segment_mask};

use super::Part;
use crate::bench::Bench;
use crate::lent::{Bytes, Words};
use crate::list::{hash, hash_bytes, packed, List};
use crate::masks::{self, shown};
use crate::ours;
use crate::pages::{Kind, KINDS};
use crate::random::Random;
use crate::tally::{self, Tally};

pub const PART: Part = Part {
    name: "levelling",
    compare,
    bench,
    list,
};

/// Document 01's limit of a page's side.
const MOST_SIDE: u32 = 8192;

/// A sheet that applies every skew, and whose rulings are longer than any small page: nothing is cut.
fn sheet() -> LayoutParams {
    LayoutParams {
        glyph_min_area: 1,
        glyph_max_extent_frac: 1.0,
        xheight_min_area: 1,
        xheight_fallback_px: 1.0,
        rule_min_len_xh: 4.0,
        rule_max_thick_xh: 0.5,
        rule_run_xh: 1.0e4,
        graphic_min_xh: 8.0,
        smear_xh: 1.0,
        line_min_glyphs: 1,
        line_min_height_xh: 0.5,
        line_max_height_xh: 3.0,
        block_min_overlap: 0.5,
        block_gap_margin_lines: 0.5,
        block_max_gap_lines: 3.0,
        column_gap_xh: 1.0,
        column_cover_frac: 0.0,
        shear_min_deg: 0.0,
    }
}

/// 0, tiny and subnormal slopes, and each sixteenth up to 1 with both its neighbours, of both signs; none is beyond 1.
fn slopes() -> Vec<f64> {
    let mut all = vec![0.0, f64::from_bits(1), f64::MIN_POSITIVE, 1e-9, 1e-3, 0.02, 0.3];
    for k in 1..=16 {
        let bits = f64::to_bits(f64::from(k) / 16.0);
        all.extend([bits - 1, bits, bits + 1].map(f64::from_bits));
    }
    all.retain(|&slope| slope <= 1.0);
    let negative: Vec<f64> = all.iter().map(|slope| -slope).collect();
    all.extend(negative);
    all
}

/// A page plane with its sides and slope.
struct Page<'a> {
    plane: &'a [u8],
    width: usize,
    height: usize,
    slope: f64,
}

impl Page<'_> {
    fn shown(&self) -> String {
        let slope = tally::shown(self.slope);
        let page = shown(self.plane, self.width);
        format!("slope {slope}, {} x {}, {page}", self.width, self.height)
    }

    fn rust(&self) -> Layout {
        level_mask(self.plane.to_vec(), self.width, self.height, 1.0, self.slope, &sheet())
    }
}

/// The memory that a call is lent.
struct Lent {
    shears: Words,
    plane: Bytes,
}

impl Lent {
    fn new() -> Self {
        Lent {
            shears: Words::new(),
            plane: Bytes::new(),
        }
    }

    /// A plane moved into the frame that the Rust has, with some memory to spare: both shears, the frame's bytes, and nothing past them.
    fn level(&mut self, tally: &mut Tally, page: &Page, rust: &Layout, fill: u8, expected: &[u8]) {
        let input = || page.shown();
        let (words, bytes) = (page.width + rust.height, rust.width * rust.height);
        let shears = self.shears.lend(words + 3);
        let plane = self.plane.lend(bytes + 3);
        let (width, height) = (page.width as u32, page.height as u32);
        let done = ours::level_plane(page.plane, fill, width, height, page.slope, shears, plane);
        tally.equal("the answer of level_plane", true, done, input);
        tally.equal("the shears", &shears_of(rust)[..], &self.shears.0[..words], input);
        tally.equal("the plane", expected, &self.plane.0[..bytes], input);
        let past = (self.shears.written_from(words), self.plane.written_from(bytes));
        tally.equal("writing past", (None, None), past, input);
    }
}

/// Both shears, one after the other.
fn shears_of(rust: &Layout) -> Vec<u32> {
    let both = rust.shear.iter().chain(&rust.shear_x);
    both.map(|&s| u32::try_from(s).expect("a shear is not below 0"))
        .collect()
}

/// Frame and ink plane of a mask, and the same page as a gray one.
fn planes(tally: &mut Tally, lent: &mut Lent, random: &mut Random, page: &Page) -> Layout {
    let rust = page.rust();
    let size = ours::frame_size(page.width as u32, page.height as u32, page.slope);
    let frame = (rust.width as u32, rust.height as u32);
    tally.equal("the frame", frame, size, || page.shown());
    lent.level(tally, page, &rust, 0, &rust.ink);
    let gray: Vec<u8> = page.plane.iter().map(|_| random.next() as u8).collect();
    let gray_page = Page { plane: &gray, ..*page };
    lent.level(tally, &gray_page, &rust, 255, &rust.level_gray(&gray));
    rust
}

fn point(tally: &mut Tally, page: &Page, rust: &Layout, shears: &[u32], x: u32, y: u32) {
    let ours = ours::to_page(shears, page.width as u32, x, y);
    tally.equal("to_page", rust.to_page(x, y), ours, || {
        format!("({x}, {y}), {}", page.shown())
    });
}

fn rectangle(tally: &mut Tally, page: &Page, rust: &Layout, shears: &[u32], corners: [u32; 4]) {
    let [x0, y0, x1, y1] = corners;
    let ours = ours::rect_to_page(shears, page.width as u32, page.height as u32, corners);
    let expected = rust.rect_to_page(&Rect { x0, y0, x1, y1 });
    tally.equal("rect_to_page", expected, ours, || {
        format!("{corners:?}, {}", page.shown())
    });
}

/// Random boxes of the frame, the whole frame among them.
fn rectangles(tally: &mut Tally, random: &mut Random, page: &Page, rust: &Layout, shears: &[u32], count: u32) {
    let (width, height) = (rust.width as u64, rust.height as u64);
    rectangle(tally, page, rust, shears, [0, 0, width as u32 - 1, height as u32 - 1]);
    for _ in 0..count {
        let x0 = random.below(width);
        let x1 = x0 + random.below(width - x0);
        let y0 = random.below(height);
        let y1 = y0 + random.below(height - y0);
        rectangle(tally, page, rust, shears, [x0, y0, x1, y1].map(|v| v as u32));
    }
}

/// A small page: held to `segment` itself, and every point of its frame mapped back.
fn small(tally: &mut Tally, lent: &mut Lent, random: &mut Random, page: &Page) {
    let rust = planes(tally, lent, random, page);
    let whole = segment_mask(page.plane, page.width, page.height, 1.0, page.slope, &sheet()).expect("accepted");
    assert!(
        (&whole.shear, &whole.shear_x, &whole.ink) == (&rust.shear, &rust.shear_x, &rust.ink),
        "the lines that level are not segment's: {}",
        page.shown()
    );
    let shears = shears_of(&rust);
    for y in 0..rust.height as u32 {
        for x in 0..rust.width as u32 {
            point(tally, page, &rust, &shears, x, y);
        }
    }
    rectangles(tally, random, page, &rust, &shears, 10);
}

/// A large page: its corners, some points and boxes mapped back.
fn large(tally: &mut Tally, lent: &mut Lent, random: &mut Random, page: &Page) {
    let rust = planes(tally, lent, random, page);
    let shears = shears_of(&rust);
    let (right, foot) = (rust.width as u32 - 1, rust.height as u32 - 1);
    for (x, y) in [(0, 0), (right, 0), (0, foot), (right, foot)] {
        point(tally, page, &rust, &shears, x, y);
    }
    for _ in 0..200 {
        let x = random.below(rust.width as u64) as u32;
        let y = random.below(rust.height as u64) as u32;
        point(tally, page, &rust, &shears, x, y);
    }
    rectangles(tally, random, page, &rust, &shears, 200);
}

fn small_pages(tally: &mut Tally, lent: &mut Lent, random: &mut Random) {
    for slope in slopes() {
        for width in 1..=12 {
            for height in 1..=12 {
                let plane = Kind::Noise(50).page(width, height, random);
                let page = Page {
                    plane: &plane,
                    width,
                    height,
                    slope,
                };
                small(tally, lent, random, &page);
            }
        }
    }
}

fn random_pages(tally: &mut Tally, lent: &mut Lent, random: &mut Random) {
    for _ in 0..20_000 {
        let (width, height) = (1 + random.below(60) as usize, 1 + random.below(60) as usize);
        let plane = random.pick(&KINDS).page(width, height, random);
        let slope = match random.below(3) {
            0 => random.fraction() * 0.1,
            _ => random.fraction(),
        } * random.pick(&[-1.0, 1.0]);
        let page = Page {
            plane: &plane,
            width,
            height,
            slope,
        };
        let rust = planes(tally, lent, random, &page);
        let shears = shears_of(&rust);
        rectangles(tally, random, &page, &rust, &shears, 10);
    }
}

fn large_pages(tally: &mut Tally, lent: &mut Lent, random: &mut Random) {
    let side = MOST_SIDE as usize;
    for (width, height) in [(1000, 1400), (side, 50), (50, side), (side, 1), (1, side)] {
        for kind in KINDS {
            let plane = kind.page(width, height, random);
            for slope in [0.0, 0.02, -0.02, 0.3, -0.3, 1.0, -1.0] {
                let page = Page {
                    plane: &plane,
                    width,
                    height,
                    slope,
                };
                large(tally, lent, random, &page);
            }
        }
    }
    // the largest frame
    let plane = Kind::Text.page(side, side, random);
    for slope in [1.0, -1.0] {
        let page = Page {
            plane: &plane,
            width: side,
            height: side,
            slope,
        };
        large(tally, lent, random, &page);
    }
}

/// Which skew is applied: at the sheet's least and beside it, zeros of both signs, and what is no number.
fn applied(tally: &mut Tally, random: &mut Random) {
    let mut values = vec![0.0, -0.0, f64::NAN, f64::INFINITY, -f64::INFINITY, 45.0, -45.0];
    for _ in 0..40 {
        let bits = (random.fraction() * 45.0).to_bits();
        values.extend([bits - 1, bits, bits + 1].map(f64::from_bits));
        values.extend([bits - 1, bits, bits + 1].map(|b| -f64::from_bits(b)));
    }
    for &least in &values {
        for &skew in &values {
            for v in [skew, 0.25, -0.0, f64::NAN] {
                let rust = if skew.abs() >= least { v } else { 0.0 };
                let input = || format!("least {least:e}, skew {skew:e}, {v:e}");
                tally.float("applied", rust, ours::applied(least, skew, v), input);
            }
        }
    }
}

/// What is outside the limits, or lent too short, or a plane of another size: no frame, and nothing written.
fn refused(tally: &mut Tally, lent: &mut Lent) {
    let beyond = f64::from_bits(1.0f64.to_bits() + 1);
    let sides = [0, 1, 3, MOST_SIDE, MOST_SIDE + 1, u32::MAX];
    for width in sides {
        for height in sides {
            for slope in [0.5, beyond, -beyond, f64::NAN, f64::INFINITY, -f64::INFINITY] {
                let good = |side: u32| (1..=MOST_SIDE).contains(&side);
                if !(good(width) && good(height) && slope.abs() <= 1.0) {
                    let size = ours::frame_size(width, height, slope);
                    let input = || format!("{width} x {height}, slope {slope:e}");
                    tally.equal("the frame", (0, 0), size, input);
                    let shears = lent.shears.lend(100);
                    let out = lent.plane.lend(100);
                    let done = ours::level_plane(&[1; 9], 0, width, height, slope, shears, out);
                    tally.equal("the refusal", false, done, input);
                    let written = (lent.shears.written_from(0), lent.plane.written_from(0));
                    tally.equal("writing when refused", (None, None), written, input);
                }
            }
        }
    }
    // 4 x 2 at 0.5 has a frame of 6 x 4
    for (plane, words, bytes) in [(7, 8, 24), (9, 8, 24), (8, 7, 24), (8, 8, 23), (0, 8, 24), (8, 0, 24), (8, 8, 0)] {
        let input = || format!("4 x 2, slope 0.5, a plane of {plane}, lent {words} and {bytes}");
        let shears = lent.shears.lend(words);
        let out = lent.plane.lend(bytes);
        let done = ours::level_plane(&vec![1; plane], 0, 4, 2, 0.5, shears, out);
        tally.equal("the refusal", false, done, input);
        let written = (lent.shears.written_from(0), lent.plane.written_from(0));
        tally.equal("writing when refused", (None, None), written, input);
    }
}

/// Words that are not the shears of such a page, or a row that they do not have: zeros.
fn no_row(tally: &mut Tally) {
    let shears = [0, 1, 1, 2, 2, 1, 1, 0];
    for (page_width, y) in [(0, 0), (4, 4), (8, 0), (9, 0), (4, u32::MAX), (u32::MAX, u32::MAX)] {
        let input = || format!("{page_width} wide, row {y}");
        tally.equal("to_page", (0, 0), ours::to_page(&shears, page_width, 0, y), input);
        for corners in [[0, y, 0, 0], [0, 0, 0, y]] {
            let ours = ours::rect_to_page(&shears, page_width, 2, corners);
            tally.equal("rect_to_page", [0; 4], ours, input);
        }
    }
    let ours = ours::rect_to_page(&shears, 4, 0, [0, 0, 5, 3]);
    tally.equal("rect_to_page", [0; 4], ours, || "0 high".to_owned());
}

fn compare(tally: &mut Tally) {
    let mut random = Random::new();
    let mut lent = Lent::new();
    no_row(tally);
    applied(tally, &mut random);
    small_pages(tally, &mut lent, &mut random);
    random_pages(tally, &mut lent, &mut random);
    large_pages(tally, &mut lent, &mut random);
    refused(tally, &mut lent);
}

/// The benchmark's pages: 2048 x 3072, each kind at each of these slopes.
const SLOPES: [f64; 7] = [0.0, 0.02, -0.02, 0.3, -0.3, 1.0, -1.0];

/// The Rust's levelling is `segment`'s own lines. They take the mask over, so at slope 0 nothing is left to do: there the copy that
/// the mask comes in by is counted, as ours is a copy too. At every other slope the copies are made before the time is taken.
fn bench(bench: &mut Bench) {
    let (width, height) = (2048, 3072);
    let sheet = sheet();
    for kind in bench.kinds() {
        let plane = kind.page(width, height, &mut Random::new());
        for slope in SLOPES {
            let rust = level_mask(plane.clone(), width, height, 1.0, slope, &sheet);
            let mut shears = vec![1; width + rust.height];
            let mut out = vec![1; rust.width * rust.height];
            let mut copies = vec![plane.clone(); if slope == 0.0 { 0 } else { Bench::MOST_CALLS }];
            bench.stage(
                "level",
                &format!("{kind} {slope}"),
                || {
                    let mask = copies.pop().unwrap_or_else(|| plane.clone());
                    black_box(level_mask(black_box(mask), width, height, 1.0, slope, &sheet));
                },
                || {
                    let (width, height) = (width as u32, height as u32);
                    let plane = black_box(&plane);
                    black_box(ours::level_plane(plane, 0, width, height, slope, &mut shears, &mut out));
                },
            );
        }
    }
}

/// Kind 0B of the list: width, height, slope, the mask; the frame, the hashes of both shears and of the ink plane.
const KIND: u8 = 0x0B;

/// The list's slopes: both zeros, tiny ones, halves, ones and some sixteenths with both their neighbours, of both signs.
fn listed_slopes() -> Vec<f64> {
    let mut all = vec![0.0, f64::from_bits(1), 1e-9, 0.02, 0.5, 1.0];
    for k in [1, 3, 8, 13] {
        let bits = f64::to_bits(f64::from(k) / 16.0);
        all.extend([bits - 1, bits, bits + 1].map(f64::from_bits));
    }
    all.push(f64::from_bits(1.0f64.to_bits() - 1));
    let negative: Vec<f64> = all.iter().map(|slope| -slope).collect();
    all.extend(negative);
    all
}

/// Slopes of wide pages: those at which most columns move as the one before, the last and the first around the bound to steep ones, and
/// steep ones.
const WIDE_SLOPES: [f64; 8] = [0.004, 0.02, 0.05, 0.062, 0.075, 0.2, 0.7, 1.0];

/// Small pages at every listed slope, and wide ones with runs and gaps of many dots.
fn list(list: &mut List) {
    let mut random = Random::new();
    for slope in listed_slopes() {
        for (width, height) in [(12, 9), (3, 17)] {
            let plane = Kind::Noise(50).page(width, height, &mut random);
            case(list, &plane, width, slope);
        }
    }
    for slope in WIDE_SLOPES.into_iter().flat_map(|slope| [slope, -slope]) {
        for (width, height) in [(80, 12), (130, 8), (150, 7)] {
            case(list, &masks::crossing(width, height, &mut random), width, slope);
        }
        let kind = random.pick(&[Kind::Text, Kind::Table, Kind::Blobs, Kind::Noise(3), Kind::Dot]);
        case(list, &kind.page(97, 20, &mut random), 97, slope);
    }
}

fn case(list: &mut List, plane: &[u8], width: usize, slope: f64) {
    let height = plane.len() / width;
    let page = Page {
        plane,
        width,
        height,
        slope,
    };
    let rust = page.rust();
    let mut words = vec![width as u64, height as u64, slope.to_bits()];
    words.extend(packed(plane));
    words.push((rust.height as u64) << 32 | rust.width as u64);
    words.push(hash(&shears_of(&rust)));
    words.push(hash_bytes(&rust.ink));
    list.case(KIND, &words);
}
