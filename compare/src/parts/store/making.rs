//! Random leaves, sheets, questions and lengths of lent memory: most of them good, the others bad in every way that document 01 names.

use original::pixel::layout::{Layout, LayoutParams};

use super::account::Account;
use super::calls::{Asked, Call, Leaf, Lengths};
use super::judge::LISTS;
use super::rules::{self, dots};
use crate::pages::{Kind, KINDS};
use crate::parts::segments::any_sheet;
use crate::parts::validate::{limits, mutated, sheet};
use crate::random::Random;

/// The memory that there is, and the greatest side and capacity of a page that it is meant for.
#[derive(Clone, Copy)]
pub struct Room {
    pub side: usize,
    pub capacity: u32,
    pub store: usize,
    pub plane: usize,
}

impl Room {
    /// Enough for the steepest slope, and some more.
    pub fn new(side: usize, capacity: u32) -> Self {
        Room {
            side,
            capacity,
            store: rules::HEADER + 9 * side + 40 * capacity as usize + 9,
            plane: 6 * side * side + 9,
        }
    }
}

/// Slopes of both signs: none, tiny ones, those of leaves, steep ones.
pub fn any_slope(random: &mut Random) -> f64 {
    let steep = random.fraction();
    let slope = random.pick(&[
        0.0,
        f64::from_bits(1),
        1e-9,
        0.0105,
        0.02,
        0.3,
        0.5,
        1.0,
        steep,
        steep / 10.0,
    ]);
    slope * random.pick(&[-1.0, 1.0])
}

/// Skews that sheets apply, and that they do not.
pub fn any_skew(random: &mut Random) -> f64 {
    let any = 45.0 * random.fraction();
    let skew = random.pick(&[0.0, 0.01, 0.4, 0.5, 0.6, 2.0, 45.0, any]);
    skew * random.pick(&[-1.0, 1.0])
}

/// A page of any kind.
pub fn any_page(random: &mut Random, width: usize, height: usize) -> Vec<u8> {
    let kind = match random.below(3) {
        0 => Kind::Noise(1 + random.below(80) as u8),
        1 => random.pick(&[Kind::Text, Kind::Table, Kind::Blobs]),
        _ => random.pick(&KINDS),
    };
    kind.page(width, height, random)
}

/// A leaf that is accepted where there is room for it.
pub fn good_leaf(random: &mut Random, room: &Room) -> Leaf {
    let side = room.side as u64;
    let (width, height) = (1 + random.below(side) as usize, 1 + random.below(side) as usize);
    Leaf {
        mask: any_page(random, width, height),
        width: width as u32,
        height: height as u32,
        skew: any_skew(random),
        slope: any_slope(random),
        sheet: any_sheet(random, width, height),
        capacity: match random.below(4) {
            0 => 1 + random.below(u64::from(room.capacity)) as u32,
            _ => room.capacity,
        },
    }
}

/// A sheet with a few fields at their limits or anything: most are not valid.
pub fn odd_sheet(random: &mut Random) -> LayoutParams {
    sheet(&mutated(random, &limits()))
}

/// The float just above, or below for a negative one.
fn beyond(x: f64) -> f64 {
    f64::from_bits(x.to_bits() + 1)
}

/// One thing of a leaf made bad.
fn spoil(random: &mut Random, leaf: &mut Leaf) {
    let sign = random.pick(&[-1.0, 1.0]);
    match random.below(8) {
        0 => leaf.width = random.pick(&[0, 8193, u32::MAX, leaf.width + 1]),
        1 => leaf.height = random.pick(&[0, 8193, u32::MAX, leaf.height + 1]),
        2 if random.below(2) == 0 => leaf.mask.push(random.below(3) as u8),
        2 => drop(leaf.mask.pop()),
        3 => {
            let dot = random.below(leaf.mask.len().max(1) as u64) as usize;
            if let Some(byte) = leaf.mask.get_mut(dot) {
                *byte = random.pick(&[2, 3, 128, 255]);
            }
        }
        4 => leaf.skew = random.pick(&[beyond(45.0), 46.0, 1e300, f64::INFINITY, f64::NAN, 45.000_000_1]) * sign,
        5 => leaf.slope = random.pick(&[beyond(1.0), 1.5, 1e300, f64::INFINITY, f64::NAN]) * sign,
        6 => leaf.sheet = odd_sheet(random),
        _ => leaf.capacity = random.pick(&[0, 65_536, u32::MAX, 65_535]),
    }
}

/// A leaf, one in four with something bad about it.
pub fn any_leaf(random: &mut Random, room: &Room) -> Leaf {
    let mut leaf = good_leaf(random, room);
    if random.below(4) == 0 {
        for _ in 0..1 + random.below(3) {
            spoil(random, &mut leaf);
        }
    }
    leaf
}

/// A box inside a frame.
pub fn good_box(random: &mut Random, frame: &Layout) -> [u32; 4] {
    let x0 = random.below(frame.width as u64);
    let x1 = x0 + random.below(frame.width as u64 - x0);
    let y0 = random.below(frame.height as u64);
    let y1 = y0 + random.below(frame.height as u64 - y0);
    [x0, y0, x1, y1].map(|v| v as u32)
}

/// A box, the whole frame often, one in four with a corner outside or with its sides reversed.
pub fn any_box(random: &mut Random, frame: &Layout) -> [u32; 4] {
    let (w, h) = (frame.width as u32, frame.height as u32);
    let good = match random.below(3) {
        0 => [0, 0, w - 1, h - 1],
        _ => good_box(random, frame),
    };
    let [x0, y0, x1, y1] = good;
    match random.below(16) {
        0 => [x0, y0, w, y1],
        1 => [x0, y0, x1, random.pick(&[h, u32::MAX])],
        2 => [x1 + 1, y0, x1, y1],
        3 => [x0, y1 + 1, x1, y1],
        _ => good,
    }
}

/// A point, one in four outside the frame.
fn any_point(random: &mut Random, frame: &Layout) -> [u32; 2] {
    let (w, h) = (frame.width as u64, frame.height as u64);
    let (x, y) = (random.below(w) as u32, random.below(h) as u32);
    match random.below(8) {
        0 => [random.pick(&[w as u32, u32::MAX]), y],
        1 => [x, random.pick(&[h as u32, u32::MAX])],
        _ => [x, y],
    }
}

/// A gray plane, one in six not of page size.
fn any_gray(random: &mut Random, frame: &Layout) -> Vec<u8> {
    let size = frame.page_width * frame.page_height;
    let length = match random.below(12) {
        0 => size + 1,
        1 => size - 1,
        _ => size,
    };
    (0..length).map(|_| random.next() as u8).collect()
}

/// A reading, for a page with this frame.
pub fn any_reading(random: &mut Random, frame: &Layout) -> Asked {
    let kind = random.pick(&[0, 1, 2, 3, 4, 4, 5, 5, 6, u32::MAX]);
    match random.below(16) {
        0 => Asked::Point(any_point(random, frame)),
        1 => Asked::Rect(any_box(random, frame)),
        2 => Asked::Gray(any_gray(random, frame)),
        3 => Asked::Frame,
        4 => Asked::Figures,
        5 => Asked::Summary,
        6 => Asked::TwentyLines,
        7 => Asked::CountDots(kind, any_box(random, frame)),
        8 => Asked::Dots(kind, any_box(random, frame)),
        9 => Asked::PrintedSheet,
        i => Asked::List(LISTS[i as usize - 10]),
    }
}

/// A length of lent memory where so much is needed, and no more than there is can be lent.
fn length(random: &mut Random, need: usize, most: usize, enough: bool) -> usize {
    let chosen = match random.below(if enough { 4 } else { 8 }) {
        0 | 1 => need,
        2 => need + 1 + random.below(8) as usize,
        3 => most.max(need),
        4 | 5 => need.saturating_sub(1),
        6 => random.below(need.max(1) as u64) as usize,
        _ => random.pick(&[0, 0, 1, 63, 64]),
    };
    chosen.min(most)
}

/// The frame and the capacity that lengths go by: of the leaf that is handed in, or else of what is held, or else any.
fn frame_for(random: &mut Random, room: &Room, account: &Account, asked: &Asked) -> (Layout, u32) {
    match (asked, account.levelled()) {
        (Asked::Level(leaf), _) if rules::leaf_number(leaf).is_none() => {
            let slope = rules::applied(leaf, leaf.slope);
            let frame = rules::frame(leaf.width as usize, leaf.height as usize, 0.0, slope);
            (frame, leaf.capacity)
        }
        (_, Some(held)) => (
            rules::frame(held.layout.page_width, held.layout.page_height, 0.0, held.slope),
            held.leaf.capacity,
        ),
        _ => (rules::frame(room.side, room.side, 0.0, 0.0), 1 + random.below(4) as u32),
    }
}

/// The call with lengths of what it is lent: enough of everything, exactly or more, or too little of something.
pub fn lend(random: &mut Random, room: &Room, account: &mut Account, asked: Asked) -> Call {
    let (frame, capacity) = frame_for(random, room, account, &asked);
    let scratch = rules::scratch_of(&frame, capacity);
    let all = Lengths {
        store: room.store,
        ink: room.plane,
        kinds: room.plane,
        scratch,
        out: usize::MAX,
    };
    let mut call = Call { asked, lent: all };
    let out = match call.asked {
        Asked::Level(_) | Asked::Segment(_) | Asked::Clear => 0,
        _ => account.tell(&call).filled.len(),
    };
    let enough = random.below(4) != 0;
    let store = if matches!(call.asked, Asked::Clear) {
        1
    } else {
        rules::store_words(&frame, capacity)
    };
    call.lent = Lengths {
        store: length(random, store, room.store, enough),
        ink: length(random, dots(&frame), room.plane, enough),
        kinds: length(random, dots(&frame), room.plane, enough),
        scratch: length(random, scratch, scratch + 20, enough),
        out: length(random, out, out + 20, enough),
    };
    call
}
