//! Pages through the store against the Rust: levelled at many slopes with one sheet, segmented with another, and with a third; every list,
//! the figures, the twelve numbers, the kinds, dots in boxes, points, boxes and gray planes mapped.

use original::pixel::layout::LayoutParams;

use super::account::{Account, Levelled};
use super::calls::{Asked, Call, Leaf, Lengths};
use super::counts::Counts;
use super::histories::History;
use super::judge::LISTS;
use super::making::{any_page, any_skew, any_slope, good_box, Room};
use super::rules::{self, dots};
use crate::host;
use crate::parts::segments::{answers, any_sheet, leaf_sheet, MOST_CAPACITY};
use crate::random::Random;
use crate::tally::Tally;

/// How many pages, of sides up to which.
const PAGES: [(u32, u64); 5] = [(8000, 12), (9000, 40), (2000, 120), (250, 400), (40, 700)];

/// Lengths that are just enough, and one more where the call is the second of two.
fn enough(leaf: &Levelled, more: usize, out: usize) -> Lengths {
    let (frame, capacity) = (&leaf.layout, leaf.leaf.capacity);
    Lengths {
        store: rules::store_words(frame, capacity) + more,
        ink: dots(frame) + more,
        kinds: dots(frame) + more,
        scratch: rules::scratch_of(frame, capacity) + more,
        out,
    }
}

/// The memory that there is: a little more than is ever lent.
fn room_for(leaf: &Levelled) -> Room {
    let needs = enough(leaf, 12, 0);
    Room {
        side: leaf.layout.page_width.max(leaf.layout.page_height),
        capacity: leaf.leaf.capacity,
        store: needs.store,
        plane: needs.ink,
    }
}

/// A sheet for segmenting: often one under which small text has lines and blocks.
fn page_sheet(random: &mut Random, width: usize, height: usize) -> LayoutParams {
    let mut p = match random.below(4) {
        0 | 1 if width > 12 => leaf_sheet(),
        _ => return any_sheet(random, width, height),
    };
    p.glyph_min_area = 1 + random.below(4) as u32;
    p.xheight_min_area = 1 + random.below(6) as u32;
    p.xheight_fallback_px = 4.0;
    p.smear_xh = 0.5 + 2.0 * random.fraction();
    p.line_min_glyphs = 1 + random.below(3) as u32;
    p.block_gap_margin_lines = random.fraction();
    p.block_max_gap_lines = 4.0 * random.fraction();
    p.column_gap_xh = 3.0 * random.fraction();
    p.column_cover_frac = random.pick(&[0.0, 0.1, 0.5]);
    p
}

/// A sheet for levelling: of it only the least skew acts.
fn level_sheet(random: &mut Random, width: usize, height: usize) -> LayoutParams {
    let mut p = any_sheet(random, width, height);
    p.shear_min_deg = random.pick(&[0.0, 0.0, 0.05, 0.5, 2.0, p.shear_min_deg]);
    p
}

/// One page: all that can be read of it, after each of two segmentings.
struct Trial<'a> {
    tally: &'a mut Tally,
    counts: &'a mut Counts,
    history: History,
    levelled: Levelled,
}

impl Trial<'_> {
    /// A call with just enough memory, or a little more.
    fn call(&mut self, random: &mut Random, asked: Asked) {
        let mut lent = enough(&self.levelled, random.below(2) as usize * 3, usize::MAX);
        let probe = Call {
            asked: asked.clone(),
            lent,
        };
        lent.out = match asked {
            Asked::Level(_) | Asked::Segment(_) | Asked::Clear => 0,
            _ => self.history.account.tell(&probe).filled.len() + random.below(2) as usize * 3,
        };
        self.history.call(self.tally, self.counts, Call { asked, lent });
    }

    /// Points, boxes, a gray plane, the frame.
    fn mapped(&mut self, random: &mut Random) {
        let frame = self.levelled.layout.clone();
        let (right, foot) = (frame.width as u32 - 1, frame.height as u32 - 1);
        self.call(random, Asked::Frame);
        for point in [[0, 0], [right, 0], [0, foot], [right, foot]] {
            self.call(random, Asked::Point(point));
        }
        self.call(random, Asked::Rect([0, 0, right, foot]));
        for _ in 0..4 {
            let corners = good_box(random, &frame);
            self.call(random, Asked::Point([corners[0], corners[1]]));
            self.call(random, Asked::Rect(corners));
        }
        let size = frame.page_width * frame.page_height;
        let gray = (0..size).map(|_| random.next() as u8).collect();
        self.call(random, Asked::Gray(gray));
    }

    /// Every reading of results; dots of each kind in a box and in the whole frame.
    fn results(&mut self, random: &mut Random) {
        let frame = self.levelled.layout.clone();
        self.call(random, Asked::Figures);
        self.call(random, Asked::Summary);
        self.call(random, Asked::TwentyLines);
        self.call(random, Asked::PrintedSheet);
        for which in LISTS {
            self.call(random, Asked::List(which));
        }
        for kind in 1..=5 {
            let corners = good_box(random, &frame);
            self.call(random, Asked::CountDots(kind, corners));
            self.call(random, Asked::Dots(kind, corners));
            let whole = [0, 0, frame.width as u32 - 1, frame.height as u32 - 1];
            self.call(random, Asked::CountDots(kind, whole));
        }
        let kind = 1 + random.below(5) as u32;
        self.call(
            random,
            Asked::Dots(kind, [0, 0, frame.width as u32 - 1, frame.height as u32 - 1]),
        );
    }
}

/// The most pieces that a labelling under one of these sheets has, at least 1. The Rust's results of the page are held to its own of the
/// levelled plane.
fn most_pieces(levelled: &Levelled, sheets: &[LayoutParams]) -> usize {
    let frame = &levelled.layout;
    let pieces = sheets.iter().flat_map(|sheet| {
        let whole = levelled.answers(sheet);
        let plane = answers(&frame.ink, frame.width, sheet);
        let same = whole.lists(frame.width, 1) == plane.lists(frame.width, 1) && whole.figures() == plane.figures();
        assert!(same, "the Rust differs from itself");
        whole.components
    });
    pieces.max().unwrap_or(0).max(1)
}

/// A leaf with room for the pieces of two sheets, or one piece too few for one of them; false where they are more than any P.
fn one(tally: &mut Tally, counts: &mut Counts, random: &mut Random, mut leaf: Leaf) -> bool {
    let (w, h) = (leaf.width as usize, leaf.height as usize);
    let sheets = [page_sheet(random, w, h), page_sheet(random, w, h)];
    let mut levelled = Levelled::new(&leaf);
    let frame = (levelled.layout.width as u32, levelled.layout.height as u32);
    let ours = host::frame_size(leaf.width, leaf.height, levelled.slope);
    tally.equal("the frame", frame, ours, || {
        format!("{} x {}, slope {}", w, h, levelled.slope)
    });
    let most = most_pieces(&levelled, &sheets);
    let few = random.below(16) == 0 && 1 < most;
    leaf.capacity = if few {
        most as u32 - 1
    } else {
        most as u32 + random.below(3) as u32
    };
    if leaf.capacity > MOST_CAPACITY {
        return false;
    }
    levelled.leaf = leaf.clone();
    let history = History::new(random, room_for(&levelled));
    let mut trial = Trial {
        tally,
        counts,
        history,
        levelled,
    };
    trial.call(random, Asked::Level(leaf));
    trial.mapped(random);
    for sheet in sheets {
        trial.call(random, Asked::Segment(sheet));
        if matches!(trial.history.account, Account::Both(..)) {
            trial.results(random);
        }
    }
    true
}

pub fn compare(tally: &mut Tally, counts: &mut Counts, random: &mut Random) {
    let mut left_out = 0;
    for (pages, side) in PAGES {
        for _ in 0..pages {
            let (width, height) = (1 + random.below(side) as usize, 1 + random.below(side) as usize);
            let leaf = Leaf {
                mask: any_page(random, width, height),
                width: width as u32,
                height: height as u32,
                skew: any_skew(random),
                slope: any_slope(random),
                sheet: level_sheet(random, width, height),
                capacity: 1,
            };
            left_out += u32::from(!one(tally, counts, random, leaf));
        }
    }
    println!("store: {left_out} pages left out, for more pieces than a capacity can be");
}
