//! Whole segmentations of ink planes: every figure, list and plane against `segment`'s, on random small pages with random valid sheets
//! and on large pages of every kind; what is refused, and what is left then; the same of sorting by itself. The benchmark times levelling
//! and segmenting together, and its stages: levelling, sorting, the cuts of sorting, and the rest.

use std::hint::black_box;

use original::pixel::layout::{compare_measured, compare_sort, compare_sorted, Layout, LayoutParams, Rect};
use original::{level_mask, segment_copy, segment_mask};

use super::kinds::near_sheet;
use super::rulings::rust_counts;
use super::validate::{plain, sheet, valid};
use super::Part;
use crate::bench::{Bench, Times};
use crate::definitions;
use crate::lent::{Bytes, Words};
use crate::list::{hash, hash_bytes, packed, List};
use crate::masks::{self, near, shown};
use crate::ours;
use crate::pages::{Kind, KINDS};
use crate::random::Random;
use crate::tally::Tally;

pub const PART: Part = Part {
    name: "segments",
    compare,
    bench,
    list,
};

/// Document 01's limits of a frame, of P and of lines, and the mark of a glyph without a line.
const MOST_WIDTH: u32 = 24_574;
const MOST_HEIGHT: u32 = 16_383;
pub const MOST_CAPACITY: u32 = 65_535;
pub const MOST_LINES: usize = 4095;
pub const NO_LINE: u32 = 0xFFF;

const FIGURES: usize = 15;
const SORT_FIGURES: usize = 7;
const RANDOM_PAGES: u32 = 120_000;
const RANDOM_LEAVES: u32 = 3000;

/// Words of scratch and of results.
pub fn scratch_words(dots: usize, capacity: usize) -> usize {
    4 * dots + 16 * capacity + 64
}

fn result_words(width: usize, capacity: usize) -> usize {
    2 * width + 35 * capacity
}

/// All that is lent, with a pattern in it.
struct Lent {
    words: Words,
    results: Words,
    kinds: Bytes,
    figures: Words,
}

impl Lent {
    fn new() -> Self {
        Lent {
            words: Words::new(),
            results: Words::new(),
            kinds: Bytes::new(),
            figures: Words::new(),
        }
    }

    /// As many words, results, kinds and figures.
    fn lend(&mut self, lengths: [usize; 4]) -> ours::Page<'_> {
        ours::Page {
            words: self.words.lend(lengths[0]),
            results: self.results.lend(lengths[1]),
            kinds: self.kinds.lend(lengths[2]),
            figures: self.figures.lend(lengths[3]),
        }
    }
}

/// The Rust's results for an ink plane, and what it does not tell: the components of each labelling, whether the unit was
/// measured, and the kind of each dot.
pub struct Answers {
    pub layout: Layout,
    pub components: [usize; 5],
    pub measured: bool,
    pub kinds: Vec<u8>,
}

pub fn answers(ink: &[u8], width: usize, p: &LayoutParams) -> Answers {
    let height = ink.len() / width;
    let layout = segment_mask(ink, width, height, 0.0, 0.0, p).expect("the page is accepted");
    let (components, measured, kinds) = compare_sorted(ink.to_vec(), width, height, p);
    Answers {
        layout,
        components,
        measured,
        kinds,
    }
}

impl Answers {
    /// Document 01's number with this capacity.
    pub fn number(&self, capacity: usize) -> u32 {
        if self.components.iter().any(|&count| capacity < count) {
            20
        } else if MOST_LINES < self.layout.lines.len() {
            21
        } else {
            0
        }
    }

    pub fn figures(&self) -> [u32; FIGURES] {
        let l = &self.layout;
        let bits = l.xheight.to_bits();
        let dots = |kind: u8| self.kinds.iter().filter(|&&k| k == kind).count() as u32;
        assert!(u64::from(dots(4)) == l.glyph_ink_pixels && l.glyph_count as usize == l.glyphs.len());
        [
            u32::from(self.measured),
            bits as u32,
            (bits >> 32) as u32,
            l.rules.len() as u32,
            l.graphics.len() as u32,
            l.glyphs.len() as u32,
            l.lines.len() as u32,
            l.blocks.len() as u32,
            l.columns.len() as u32,
            l.ink_pixels as u32,
            dots(1),
            dots(2),
            dots(3),
            dots(4),
            dots(5),
        ]
    }

    /// Document 01's number of sorting by itself: the smoothed glyphs are not labelled there.
    fn sort_number(&self, capacity: usize) -> u32 {
        if self.components[..4].iter().any(|&count| capacity < count) {
            20
        } else {
            0
        }
    }

    fn sort_figures(&self) -> [u32; SORT_FIGURES] {
        let bits = self.layout.xheight.to_bits();
        [
            u32::from(self.measured),
            bits as u32,
            (bits >> 32) as u32,
            self.layout.ink_pixels as u32,
            self.components[1] as u32,
            self.components[2] as u32,
            self.components[3] as u32,
        ]
    }

    /// Each list with its place.
    pub fn lists(&self, width: usize, capacity: usize) -> [(usize, Vec<u32>); 6] {
        let l = &self.layout;
        let boxes = |list: &[Rect]| list.iter().flat_map(corners).collect();
        let glyphs = l.glyphs.iter().flat_map(|g| {
            let line = g.line.map_or(NO_LINE, |line| line as u32);
            corners(&g.bbox).into_iter().chain([g.area, line])
        });
        let lines = l.lines.iter().flat_map(|l| {
            let rest = [l.glyphs, l.ink_area as u32, l.glyph_height, l.block as u32];
            corners(&l.bbox).into_iter().chain(rest)
        });
        let blocks = l.blocks.iter();
        let blocks = blocks.flat_map(|b| corners(&b.bbox).into_iter().chain([b.lines.len() as u32]));
        let at = |words: usize| 2 * width + words * capacity;
        [
            (0, l.columns.iter().flat_map(|&(x0, x1)| [x0, x1]).collect()),
            (at(0), boxes(&l.rules)),
            (at(12), boxes(&l.graphics)),
            (at(16), glyphs.collect()),
            (at(22), lines.collect()),
            (at(30), blocks.collect()),
        ]
    }
}

fn corners(r: &Rect) -> [u32; 4] {
    [r.x0, r.y0, r.x1, r.y1]
}

/// A page with this capacity; three words and bytes more than are needed are lent.
fn one(tally: &mut Tally, lent: &mut Lent, ink: &[u8], width: usize, p: &LayoutParams, rust: &Answers, capacity: usize) {
    let (dots, height) = (ink.len(), ink.len() / width);
    let input = || format!("{}, P {capacity}, {p:?}", shown(ink, width));
    let (words, results) = (scratch_words(dots, capacity), result_words(width, capacity));
    let mut page = lent.lend([words + 3, results + 3, dots + 3, FIGURES + 3]);
    let mut expected = page.results.to_vec();
    let number = ours::segment(ink, width as u32, height as u32, p, capacity as u32, &mut page);
    tally.equal("the number", rust.number(capacity), number, input);
    tally.equal("words past scratch", None, lent.words.written_from(words), input);
    if number != 0 {
        tally.equal("results when refused", None, lent.results.written_from(0), input);
        tally.equal("kinds when refused", None, lent.kinds.written_from(0), input);
        tally.equal("figures when refused", None, lent.figures.written_from(0), input);
        return;
    }
    for (at, list) in rust.lists(width, capacity) {
        expected[at..at + list.len()].copy_from_slice(&list);
    }
    tally.equal("figures", &rust.figures()[..], &lent.figures.0[..FIGURES], input);
    tally.equal("words past the figures", None, lent.figures.written_from(FIGURES), input);
    tally.equal("lists", &expected, &lent.results.0, input);
    tally.equal("kinds", &rust.kinds[..], &lent.kinds.0[..dots], input);
    tally.equal("bytes past the kinds", None, lent.kinds.written_from(dots), input);
}

/// A page sorted by itself, with this capacity.
fn sort_one(tally: &mut Tally, lent: &mut Lent, ink: &[u8], width: usize, p: &LayoutParams, rust: &Answers, capacity: usize) {
    let (dots, height) = (ink.len(), ink.len() / width);
    let input = || format!("sorted: {}, P {capacity}, {p:?}", shown(ink, width));
    let needed = scratch_words(dots, capacity);
    let page = lent.lend([needed + 3, 0, 0, SORT_FIGURES + 3]);
    let number = ours::sort(ink, width as u32, height as u32, p, capacity as u32, page.words, page.figures);
    tally.equal("the number", rust.sort_number(capacity), number, input);
    tally.equal("words past scratch", None, lent.words.written_from(needed), input);
    if number != 0 {
        tally.equal("figures when refused", None, lent.figures.written_from(0), input);
        return;
    }
    tally.equal("figures", &rust.sort_figures()[..], &lent.figures.0[..SORT_FIGURES], input);
    tally.equal("words past the figures", None, lent.figures.written_from(SORT_FIGURES), input);
}

/// A page with as many components as the capacity or a few less, and with one more than it.
fn around(tally: &mut Tally, lent: &mut Lent, random: &mut Random, ink: &[u8], width: usize, p: &LayoutParams) {
    let rust = answers(ink, width, p);
    let most = rust.components.iter().copied().max().unwrap_or(0);
    let room = most.max(1) + random.below(4) as usize;
    one(tally, lent, ink, width, p, &rust, room);
    sort_one(tally, lent, ink, width, p, &rust, room);
    if 1 < most {
        one(tally, lent, ink, width, p, &rust, most - 1);
        sort_one(tally, lent, ink, width, p, &rust, most - 1);
    }
}

/// A sheet: of values at which small pages differ, of any, or with thresholds at the sides of what is on the page.
pub fn any_sheet(random: &mut Random, width: usize, height: usize) -> LayoutParams {
    match random.below(4) {
        0 => sheet(&valid(random)),
        1 => {
            let side = |random: &mut Random| 1 + random.below(6) as u32;
            let (w, h) = (side(random), side(random));
            let unit = f64::from(side(random));
            let mut p = near_sheet(random, unit, (width as u32, height as u32), [w * h, w, h]);
            p.xheight_fallback_px = unit;
            p.line_min_glyphs = 1;
            p
        }
        _ => definitions::sheet(random),
    }
}

fn small_pages(tally: &mut Tally, lent: &mut Lent, random: &mut Random) {
    for _ in 0..RANDOM_PAGES {
        let (width, height) = (1 + random.below(32) as usize, 1 + random.below(32) as usize);
        let kind = match random.below(3) {
            0 => random.pick(&KINDS),
            _ => Kind::Noise(1 + random.below(80) as u8),
        };
        let ink = kind.page(width, height, random);
        let p = any_sheet(random, width, height);
        around(tally, lent, random, &ink, width, &p);
    }
}

/// Small leaves, with lines, blocks and columns.
fn leaves(tally: &mut Tally, lent: &mut Lent, random: &mut Random) {
    for _ in 0..RANDOM_LEAVES {
        let (width, height) = (40 + random.below(160) as usize, 40 + random.below(160) as usize);
        let kind = random.pick(&[Kind::Text, Kind::Text, Kind::Table, Kind::Blobs, Kind::Noise(3)]);
        let ink = kind.page(width, height, random);
        let p = any_sheet(random, width, height);
        around(tally, lent, random, &ink, width, &p);
    }
}

/// Every kind of page, with one sheet for leaves and another for what lies on few dots, at the greatest capacity.
fn large_pages(tally: &mut Tally, lent: &mut Lent, random: &mut Random) {
    let shapes = [(1000, 700), (2048, 3072), (MOST_WIDTH as usize, 40), (60, MOST_HEIGHT as usize), (1, 3000), (3000, 1)];
    for (width, height) in shapes {
        for kind in KINDS {
            let ink = kind.page(width, height, random);
            for p in [leaf_sheet(), sheet(&plain())] {
                let rust = answers(&ink, width, &p);
                one(tally, lent, &ink, width, &p, &rust, MOST_CAPACITY as usize);
                sort_one(tally, lent, &ink, width, &p, &rust, MOST_CAPACITY as usize);
            }
        }
    }
}

/// Lines of one dot each, as many as a page may have and one more.
fn many_lines(tally: &mut Tally, lent: &mut Lent) {
    let mut p = sheet(&plain());
    p.line_min_glyphs = 1;
    p.smear_xh = 0.0;
    for count in [MOST_LINES, MOST_LINES + 1] {
        let (width, height) = (128, 130);
        let mut ink = vec![0; width * height];
        for i in 0..count {
            ink[i / 64 * 2 * width + i % 64 * 2] = 1;
        }
        let rust = answers(&ink, width, &p);
        one(tally, lent, &ink, width, &p, &rust, 5000);
    }
}

/// What is outside its limits or too short: its number, and nothing written.
fn refused(tally: &mut Tally, lent: &mut Lent) {
    let good = sheet(&plain());
    let mut bad = good.clone();
    bad.smear_xh = -1.0;
    // width, height, length of the ink, a byte of it, valid or not, capacity, number
    let calls = [
        (0, 1, 0, 1, true, 4, 1),
        (1, 0, 0, 1, true, 4, 1),
        (MOST_WIDTH + 1, 1, MOST_WIDTH as usize + 1, 1, true, 4, 1),
        (1, MOST_HEIGHT + 1, MOST_HEIGHT as usize + 1, 1, true, 4, 1),
        (u32::MAX, u32::MAX, 6, 2, false, 0, 1),
        (3, 2, 5, 2, false, 0, 2),
        (3, 2, 7, 2, false, 0, 2),
        (3, 2, 6, 2, false, 0, 3),
        (3, 2, 6, 255, true, 4, 3),
        (3, 2, 6, 1, false, 0, 6),
        (3, 2, 6, 1, true, 0, 7),
        (3, 2, 6, 1, true, MOST_CAPACITY + 1, 7),
    ];
    for call in calls {
        let (width, height, length, byte, valid, capacity, number) = call;
        let mut ink = vec![1; length];
        if let Some(last) = ink.last_mut() {
            *last = byte;
        }
        let mut page = lent.lend([4000; 4]);
        let answer = ours::segment(&ink, width, height, if valid { &good } else { &bad }, capacity, &mut page);
        tally.equal("the number", number, answer, || format!("{call:?}"));
        untouched(tally, lent, || format!("{call:?}"));
        let page = lent.lend([4000; 4]);
        let sheet = if valid { &good } else { &bad };
        let answer = ours::sort(&ink, width, height, sheet, capacity, page.words, page.figures);
        tally.equal("the number of a sorting", number, answer, || format!("{call:?}"));
        untouched(tally, lent, || format!("{call:?}"));
    }
    short_sorts(tally, lent, &good);
    let (width, dots, capacity) = (3usize, 6usize, 4usize);
    let needed = [scratch_words(dots, capacity), result_words(width, capacity), dots, FIGURES];
    for i in 0..needed.len() {
        for length in near(needed[i]) {
            let mut lengths = needed;
            lengths[i] = length;
            let mut page = lent.lend(lengths);
            let answer = ours::segment(&[1; 6], 3, 2, &good, capacity as u32, &mut page);
            let number = if length < needed[i] { 9 } else { 0 };
            tally.equal("the number", number, answer, || format!("{lengths:?}"));
            if number != 0 {
                untouched(tally, lent, || format!("{lengths:?}"));
            }
        }
    }
}

/// Sorting with memory that is too short, just long enough or longer.
fn short_sorts(tally: &mut Tally, lent: &mut Lent, p: &LayoutParams) {
    let needed = [scratch_words(6, 4), SORT_FIGURES];
    for (i, length) in [0, 1].into_iter().flat_map(|i| near(needed[i]).map(|length| (i, length))) {
        let mut lengths = needed;
        lengths[i] = length;
        let page = lent.lend([lengths[0], 0, 0, lengths[1]]);
        let answer = ours::sort(&[1; 6], 3, 2, p, 4, page.words, page.figures);
        let number = if length < needed[i] { 9 } else { 0 };
        tally.equal("the number of a sorting", number, answer, || format!("{lengths:?}"));
        if number != 0 {
            untouched(tally, lent, || format!("{lengths:?}"));
        }
    }
}

fn untouched(tally: &mut Tally, lent: &Lent, input: impl Fn() -> String) {
    tally.equal("words when refused", None, lent.words.written_from(0), &input);
    tally.equal("results when refused", None, lent.results.written_from(0), &input);
    tally.equal("kinds when refused", None, lent.kinds.written_from(0), &input);
    tally.equal("figures when refused", None, lent.figures.written_from(0), &input);
}

fn compare(tally: &mut Tally) {
    let mut random = Random::new();
    let mut lent = Lent::new();
    refused(tally, &mut lent);
    small_pages(tally, &mut lent, &mut random);
    leaves(tally, &mut lent, &mut random);
    many_lines(tally, &mut lent);
    large_pages(tally, &mut lent, &mut random);
}

/// A sheet for scanned leaves.
pub fn leaf_sheet() -> LayoutParams {
    LayoutParams {
        glyph_min_area: 8,
        glyph_max_extent_frac: 0.5,
        xheight_min_area: 16,
        xheight_fallback_px: 20.0,
        rule_min_len_xh: 4.0,
        rule_max_thick_xh: 0.3,
        rule_run_xh: 4.0,
        graphic_min_xh: 6.0,
        smear_xh: 1.2,
        line_min_glyphs: 3,
        line_min_height_xh: 0.5,
        line_max_height_xh: 4.0,
        block_min_overlap: 0.5,
        block_gap_margin_lines: 0.6,
        block_max_gap_lines: 3.0,
        column_gap_xh: 1.5,
        column_cover_frac: 0.1,
        shear_min_deg: 0.05,
    }
}

/// Levelling and segmenting, by these skews and slopes; noise on pages small enough that no labelling has too many components.
fn bench(bench: &mut Bench) {
    let p = leaf_sheet();
    let kinds = bench.kinds();
    let pages = kinds.iter().map(|&kind| match kind {
        Kind::Noise(10) => (kind, 512, 512),
        Kind::Noise(_) => (kind, 1024, 1024),
        _ => (kind, 2048, 3072),
    });
    let lined = bench.lined();
    let lined = lined.iter().map(|&kind| match kind {
        Kind::FewLines => (kind, 8192, 768),
        _ => (kind, 2048, 3072),
    });
    let large = kinds.iter().filter(|kind| matches!(kind, Kind::Text | Kind::Table)).map(|&kind| (kind, 8192, 8192));
    for (kind, width, height) in pages.chain(lined).chain(large) {
        let mask = kind.page(width, height, &mut Random::new());
        for (skew, slope) in SKEWS {
            stages(bench, &p, &mask, width, skew, slope, &format!("{kind}-{width}x{height} slope {slope}"));
        }
    }
}

/// A scanned page: the lines of its stages, and of the whole, at slope 0 and at that of 0.6 degrees.
pub fn bench_scan(bench: &mut Bench, name: &str, mask: &[u8], width: usize) {
    let p = leaf_sheet();
    for (skew, slope) in SKEWS {
        stages(bench, &p, mask, width, skew, slope, &format!("{name} slope {slope}"));
    }
}

/// The skews that pages are timed at, and their slopes.
const SKEWS: [(f64, f64); 2] = [(0.0, 0.0), (0.6, 0.010_472)];

/// A page to time, and what is lent for it.
struct Timed<'a> {
    p: &'a LayoutParams,
    mask: &'a [u8],
    sides: (usize, usize),
    skew: f64,
    slope: f64,
    frame: (u32, u32),
    limits: (usize, usize),
    shears: Vec<u32>,
    ink: Vec<u8>,
    words: Vec<u32>,
    results: Vec<u32>,
    kinds: Vec<u8>,
}

/// The lines of a page: levelling, sorting, the cuts of sorting, the whole, and the rest of it beside levelling and sorting.
fn stages(bench: &mut Bench, p: &LayoutParams, mask: &[u8], width: usize, skew: f64, slope: f64, name: &str) {
    let mut page = Timed::new(p, mask, width, skew, slope);
    let [levelling, sorting, cuts, whole] =
        bench.together(|| [page.levelling(), page.sorting(), page.cuts(), page.whole()]);
    bench.line("levelling", name, levelling);
    bench.line("sorting", name, sorting);
    bench.line("cuts", name, cuts);
    match whole.less(levelling).and_then(|times| times.less(sorting)) {
        Some(rest) => bench.line("rest", name, rest),
        None => println!("rest {name} is too short to tell"),
    }
    bench.line("segments", name, whole);
}

impl<'a> Timed<'a> {
    /// The limits of thin rulings are those that the page's own unit gives.
    fn new(p: &'a LayoutParams, mask: &'a [u8], width: usize, skew: f64, slope: f64) -> Self {
        let height = mask.len() / width;
        let (w, h) = ours::frame_size(width as u32, height as u32, slope);
        let (dots, capacity) = (w as usize * h as usize, MOST_CAPACITY as usize);
        let mut page = Timed {
            p,
            mask,
            sides: (width, height),
            skew,
            slope,
            frame: (w, h),
            limits: (2, 1),
            shears: vec![0; width + h as usize],
            ink: vec![0; dots],
            words: vec![1; scratch_words(dots, capacity)],
            results: vec![1; result_words(w as usize, capacity)],
            kinds: vec![1; dots],
        };
        page.level();
        page.limits = compare_measured(&page.ink, w as usize, h as usize, p);
        page
    }

    fn level(&mut self) {
        let (width, height) = (self.sides.0 as u32, self.sides.1 as u32);
        let mask = black_box(self.mask);
        let levelled = ours::level_plane(mask, 0, width, height, self.slope, &mut self.shears, &mut self.ink);
        assert!(black_box(levelled), "the page is not levelled");
    }

    /// The Rust takes its mask over, and at slope 0 has then nothing to do; ours leaves the mask as it is and copies. So at slope 0 the copy that
    /// the Rust's mask comes in by is counted; at every other slope it is made before the time is taken.
    fn levelling(&mut self) -> Times {
        let (p, mask, (width, height), skew, slope) = (self.p, self.mask, self.sides, self.skew, self.slope);
        let copy = if slope == 0.0 { None } else { Some(mask.to_vec()) };
        Times::once(
            || {
                let copy = copy.unwrap_or_else(|| black_box(mask).to_vec());
                black_box(level_mask(black_box(copy), width, height, skew, slope, p));
            },
            || self.level(),
        )
    }

    /// On the levelled ink, which the Rust takes by value and cuts.
    fn sorting(&mut self) -> Times {
        let (p, (w, h), ink) = (self.p, self.frame, self.ink.clone());
        let mut figures = [1; SORT_FIGURES];
        Times::once(
            || {
                black_box(compare_sort(ink, w as usize, h as usize, p));
            },
            || {
                let number = ours::sort(black_box(&self.ink), w, h, p, MOST_CAPACITY, &mut self.words, &mut figures);
                assert!(black_box(number) == 0, "sorting is refused by {number}");
            },
        )
    }

    fn cuts(&mut self) -> Times {
        let ((w, h), (run_min, thick_max), ink) = (self.frame, self.limits, black_box(&self.ink));
        let (limits, words, mut counts) = ((run_min as u32, thick_max as u32), &mut self.words, [1; 2]);
        Times::once(
            || {
                black_box(rust_counts(ink, w as usize, run_min, thick_max));
            },
            || {
                let number = ours::cut_rulings(ink, w, h, limits.0, limits.1, MOST_CAPACITY, words, &mut counts);
                assert!(black_box(number) == 0, "cutting is refused by {number}");
            },
        )
    }

    /// The copy of the mask that the Rust takes over is made before the time is taken.
    fn whole(&mut self) -> Times {
        let (p, mask, (width, height), (w, h)) = (self.p, self.mask, self.sides, self.frame);
        let (skew, slope) = (self.skew, self.slope);
        let mut figures = [1; FIGURES];
        let copy = mask.to_vec();
        Times::once(
            || {
                black_box(segment_copy(black_box(mask), copy, width, height, skew, slope, p).expect("accepted"));
            },
            || {
                self.level();
                let mut lent = ours::Page {
                    words: &mut self.words,
                    results: &mut self.results,
                    kinds: &mut self.kinds,
                    figures: &mut figures,
                };
                let number = ours::segment(&self.ink, w, h, p, MOST_CAPACITY, &mut lent);
                assert!(black_box(number) == 0, "segmenting is refused by {number}");
            },
        )
    }
}

/// The most dots and components of a page that the gate replays.
const REPLAYED_DOTS: usize = 4096;
const REPLAYED_CAPACITY: usize = 64;

/// Wide pages, whose runs and gaps are of many dots.
fn wide_pages(list: &mut List, random: &mut Random) {
    for i in 0..48 {
        let (width, height) = random.pick(&[(300, 8), (320, 12), (352, 11), (500, 5)]);
        let ink = match i % 3 {
            0 => random.pick(&[Kind::Text, Kind::Table, Kind::Blobs, Kind::Stripes]).page(width, height, random),
            1 => Kind::Noise(random.pick(&[1, 2, 85, 95])).page(width, height, random),
            _ => masks::crossing(width, height, random),
        };
        let p = any_sheet(random, width, height);
        let rust = answers(&ink, width, &p);
        let most = rust.components.iter().copied().max().unwrap_or(0).max(1);
        if most <= REPLAYED_CAPACITY {
            case(list, &ink, width, &p, most, &rust);
        }
    }
}

/// Small pages of every kind, those with lines, blocks and columns, and wide ones.
fn list(list: &mut List) {
    let mut random = Random::new();
    for i in 0..420 {
        let (width, height) = if i % 3 == 0 {
            (20 + random.below(20) as usize, 16 + random.below(10) as usize)
        } else {
            (1 + random.below(16) as usize, 1 + random.below(16) as usize)
        };
        let kind = match i % 3 {
            0 => random.pick(&[Kind::Text, Kind::Table, Kind::Blobs, Kind::Noise(5)]),
            1 => random.pick(&KINDS),
            _ => Kind::Noise(1 + random.below(80) as u8),
        };
        let ink = kind.page(width, height, &mut random);
        let p = any_sheet(&mut random, width, height);
        let rust = answers(&ink, width, &p);
        let most = rust.components.iter().copied().max().unwrap_or(0).max(1);
        let capacity = if i % 8 == 7 { most.saturating_sub(1).max(1) } else { most };
        if ink.len() <= REPLAYED_DOTS && most <= REPLAYED_CAPACITY {
            case(list, &ink, width, &p, capacity, &rust);
        }
    }
    wide_pages(list, &mut random);
}

/// The words are: width, height, the eighteen of the sheet, capacity, the page; then the number, and the figures, the lists' words and
/// the plane of kinds as one word each, over zeros.
fn case(list: &mut List, ink: &[u8], width: usize, p: &LayoutParams, capacity: usize, rust: &Answers) {
    let mut words = vec![width as u64, (ink.len() / width) as u64];
    words.extend(sheet_words(p));
    words.push(capacity as u64);
    words.extend(packed(ink));
    let number = rust.number(capacity);
    words.push(u64::from(number));
    let mut figures = [0; FIGURES];
    let mut results = vec![0; result_words(width, capacity)];
    let mut kinds = vec![0; ink.len()];
    if number == 0 {
        figures = rust.figures();
        for (at, list) in rust.lists(width, capacity) {
            results[at..at + list.len()].copy_from_slice(&list);
        }
        kinds.copy_from_slice(&rust.kinds);
    }
    words.extend([hash(&figures), hash(&results), hash_bytes(&kinds)]);
    list.case(0x0C, &words);
}

/// A sheet as words, in the order of its fields.
fn sheet_words(p: &LayoutParams) -> [u64; 18] {
    [
        u64::from(p.glyph_min_area),
        p.glyph_max_extent_frac.to_bits(),
        u64::from(p.xheight_min_area),
        p.xheight_fallback_px.to_bits(),
        p.rule_min_len_xh.to_bits(),
        p.rule_max_thick_xh.to_bits(),
        p.rule_run_xh.to_bits(),
        p.graphic_min_xh.to_bits(),
        p.smear_xh.to_bits(),
        u64::from(p.line_min_glyphs),
        p.line_min_height_xh.to_bits(),
        p.line_max_height_xh.to_bits(),
        p.block_min_overlap.to_bits(),
        p.block_gap_margin_lines.to_bits(),
        p.block_max_gap_lines.to_bits(),
        p.column_gap_xh.to_bits(),
        p.column_cover_frac.to_bits(),
        p.shear_min_deg.to_bits(),
    ]
}
