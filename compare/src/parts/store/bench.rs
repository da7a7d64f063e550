//! What the store costs: segmenting through it against the pass alone, levelling through it against moving the plane alone, readings, and
//! the whole against the Rust. A page's lines come at slope 0 and at that of a leaf.

use std::hint::black_box;
use std::time::Duration;

use original::pixel::layout::{summarize, LayoutParams};
use original::segment_mask;

use super::rules::{self, dots, HEADER};
use crate::bench::{Bench, Times};
use crate::host::{self, Held, Page};
use crate::ours;
use crate::pages::Kind;
use crate::parts::segments::{leaf_sheet, MOST_CAPACITY, MOST_LINES};
use crate::parts::validate::{plain, sheet};
use crate::random::Random;

/// A page with all that is lent for it, through the store and without.
struct Lent<'a> {
    page: Page<'a>,
    p: LayoutParams,
    capacity: u32,
    frame: (u32, u32),
    store: Vec<u32>,
    ink: Vec<u8>,
    kinds: Vec<u8>,
    scratch: Vec<u32>,
    shears: Vec<u32>,
    results: Vec<u32>,
}

impl<'a> Lent<'a> {
    fn new(page: Page<'a>, p: LayoutParams, capacity: u32) -> Self {
        let frame = rules::frame(page.width as usize, page.height as usize, page.skew, page.slope);
        let (size, words) = (dots(&frame), rules::store_words(&frame, capacity));
        let mut lent = Lent {
            page,
            p,
            capacity,
            frame: (frame.width as u32, frame.height as u32),
            store: vec![0; words],
            ink: vec![1; size],
            kinds: vec![1; size],
            scratch: vec![1; rules::scratch_of(&frame, capacity)],
            shears: vec![1; page.width as usize + frame.height],
            results: vec![1; words - HEADER],
        };
        lent.level();
        lent.segment();
        lent
    }

    fn dots(&self) -> usize {
        self.ink.len()
    }

    fn level(&mut self) {
        host::clear(&mut self.store);
        let number = host::level(
            black_box(self.page),
            &self.p,
            self.capacity,
            &mut self.store,
            &mut self.ink,
        );
        assert!(black_box(number) == 0, "levelling is refused by {number}");
    }

    fn segment(&mut self) {
        let (store, kinds) = (&mut self.store, &mut self.kinds);
        let number = host::segment(&self.p, store, black_box(&self.ink), kinds, &mut self.scratch);
        assert!(black_box(number) == 0, "segmenting is refused by {number}");
    }

    /// The plane moved, and nothing judged but lengths.
    fn level_plane(&mut self) {
        let Page {
            mask,
            width,
            height,
            slope,
            ..
        } = black_box(self.page);
        let levelled = ours::level_plane(mask, 0, width, height, slope, &mut self.shears, &mut self.ink);
        assert!(black_box(levelled), "the page is not levelled");
    }

    /// The pass alone, which judges its ink too.
    fn segment_plane(&mut self) {
        let mut figures = [1; 15];
        let mut lent = ours::Page {
            words: &mut self.scratch,
            results: &mut self.results,
            kinds: &mut self.kinds,
            figures: &mut figures,
        };
        let (w, h) = self.frame;
        let number = ours::segment(black_box(&self.ink), w, h, &self.p, self.capacity, &mut lent);
        assert!(black_box(number) == 0, "segmenting is refused by {number}");
    }

    fn held(&self) -> Held<'_> {
        black_box(Held {
            store: &self.store,
            ink: &self.ink,
            kinds: &self.kinds,
        })
    }

    fn figures(&self) {
        let mut out = [1; 15];
        assert!(host::read_figures(self.held(), &mut out) == 0, "reading is refused");
        black_box(out);
    }

    fn summary(&self) {
        let mut out = [1.0; 12];
        assert!(host::read_summary(self.held(), &mut out) == 0, "reading is refused");
        black_box(out);
    }

    fn twenty_lines(&self) {
        assert!(
            black_box(host::twenty_line_measure(self.held())).number == 0,
            "reading is refused"
        );
    }

    /// A box of 64 by 64 in the middle of the frame.
    fn middle(&self) -> [u32; 4] {
        let (x, y) = (self.frame.0 / 2 - 32, self.frame.1 / 2 - 32);
        [x, y, x + 63, y + 63]
    }

    fn count_dots(&self) {
        assert!(
            black_box(host::count_dots(self.held(), 4, self.middle())).number == 0,
            "reading is refused"
        );
    }

    fn dot_list(&self) {
        let mut out = [1; 2 * 64 * 64];
        assert!(
            host::read_dots(self.held(), 4, self.middle(), &mut out).number == 0,
            "reading is refused"
        );
        black_box(out);
    }

    fn sheet(&self, out: &mut [u8]) -> usize {
        let answer = black_box(host::write_sheet(self.held(), out));
        assert!(answer.number == 0, "the sheet is refused by {}", answer.number);
        answer.value as usize
    }

    /// Levelling, segmenting and one reading, as a host does them.
    fn whole(&mut self) {
        self.level();
        self.segment();
        self.summary();
    }

    fn rust(&self) {
        let Page {
            mask,
            width,
            height,
            skew,
            slope,
        } = black_box(self.page);
        let layout = segment_mask(mask, width as usize, height as usize, skew, slope, &self.p).expect("accepted");
        black_box(summarize(&layout));
    }
}

/// More bytes than a sheet can have.
const MOST_PRINTED: usize = 9_000_000;

fn milliseconds(time: Duration) -> f64 {
    time.as_secs_f64() * 1e3
}

/// Two times of ours: `STAGE PAGE ratio R, through the store A, WITHOUT B milliseconds`, R being B over A.
fn ratio(stage: &str, page: &str, without: &str, times: Times) {
    let [alone, store] = [times.rust, times.ours].map(milliseconds);
    println!(
        "{stage} {page} ratio {:.3}, through the store {store:.3}, {without} {alone:.3} milliseconds",
        alone / store
    );
}

/// What a reading takes beyond a reading of the figures, which is all judging.
fn beyond(stage: &str, page: &str, times: Times) {
    let [judging, whole] = [times.rust, times.ours].map(milliseconds);
    println!(
        "{stage} {page} beyond the judging {:.3}, judging {judging:.3} milliseconds",
        whole - judging
    );
}

fn page_lines(bench: &mut Bench, lent: &mut Lent, name: &str) {
    let [segment, level] = bench.together(|| {
        let alone = Times::once(|| (), || lent.segment_plane()).ours;
        let store = Times::once(|| (), || lent.segment()).ours;
        let plane = Times::once(|| (), || lent.level_plane()).ours;
        let levelled = Times::once(|| (), || lent.level()).ours;
        lent.segment();
        let pair = |rust: Duration, ours: Duration| Times { rust, ours };
        [pair(alone, store), pair(plane, levelled)]
    });
    ratio("store-segment", name, "the pass alone", segment);
    ratio("store-level", name, "the plane alone", level);
    let size = lent.dots();
    let mut printed = vec![1; MOST_PRINTED];
    let bytes = lent.sheet(&mut printed);
    let [figures, count, list, sheet] = bench.together(|| {
        [
            Times::once(|| (), || lent.figures()),
            Times::once(|| lent.figures(), || lent.count_dots()),
            Times::once(|| lent.figures(), || lent.dot_list()),
            Times::once(
                || lent.figures(),
                || {
                    lent.sheet(&mut printed);
                },
            ),
        ]
    });
    let dot = figures.ours.as_secs_f64() * 1e9 / size as f64;
    println!("store-read {name} {dot:.3} nanoseconds a frame dot");
    beyond("store-count-dots-64x64", name, count);
    beyond("store-dots-64x64", name, list);
    beyond(&format!("store-sheet of {bytes} bytes"), name, sheet);
    let [whole] = bench.together(|| {
        let rust = Times::once(|| lent.rust(), || ()).rust;
        let ours = Times::once(|| (), || lent.whole()).ours;
        [Times { rust, ours }]
    });
    bench.line("store-whole", name, whole);
}

/// As many lines as a page may have, each a dot: in few blocks; and, on the highest page, in blocks of their own but for one pair, so that
/// there is a pitch to find, and each line is far from any other of its block.
fn many_lines(bench: &mut Bench) {
    let width = 128usize;
    for (name, height, pitch) in [("4095-lines-64-blocks", 130, 2), ("4095-lines-4094-blocks", 8192, 4)] {
        let mut mask = vec![0; width * height];
        for i in 1..MOST_LINES {
            mask[i / 64 * pitch * width + i % 64 * 2] = 1;
        }
        mask[(63 * pitch + pitch.max(3) - 1) * width] = 1;
        let mut p = sheet(&plain());
        p.smear_xh = 0.0;
        p.block_max_gap_lines = 2.0;
        let page = Page {
            mask: &mask,
            width: width as u32,
            height: height as u32,
            skew: 0.0,
            slope: 0.0,
        };
        let lent = Lent::new(page, p, 4200);
        let [twenty, summary] = bench.together(|| {
            [
                Times::once(|| lent.figures(), || lent.twenty_lines()),
                Times::once(|| lent.figures(), || lent.summary()),
            ]
        });
        println!("{name}: {} lines, {} blocks", lent.store[16], lent.store[17]);
        beyond("store-twenty-lines", name, twenty);
        beyond("store-summary", name, summary);
    }
}

pub fn bench(bench: &mut Bench) {
    many_lines(bench);
    let timed = [
        (Kind::Text, 2048, 3072),
        (Kind::Table, 2048, 3072),
        (Kind::Blank, 2048, 3072),
        (Kind::Text, 8192, 8192),
    ];
    let asked = bench.kinds();
    for (kind, width, height) in timed.into_iter().filter(|(kind, ..)| asked.contains(kind)) {
        let mask = kind.page(width, height, &mut Random::new());
        for (skew, slope) in [(0.0, 0.0), (0.6, 0.010_472)] {
            let page = Page {
                mask: &mask,
                width: width as u32,
                height: height as u32,
                skew,
                slope,
            };
            let mut lent = Lent::new(page, leaf_sheet(), MOST_CAPACITY);
            page_lines(bench, &mut lent, &format!("{kind}-{width}x{height} slope {slope}"));
        }
    }
}
