//! Stores that no list of calls gives: a genuine one with a word or a byte changed, or with several. Every entry is called on each, and
//! its outcome held to the judge, who reads the words.

use original::pixel::layout::LayoutParams;

use super::account::{Account, Levelled};
use super::calls::{hold, Asked, Call, Leaf, Lengths, Memory};
use super::counts::Counts;
use super::judge::{judged, LISTS};
use super::making::{any_box, any_leaf, any_reading, good_box, good_leaf, odd_sheet, Room};
use super::rules::{self, dots};
use crate::parts::segments::any_sheet;
use crate::random::Random;
use crate::tally::Tally;

/// Stores of which every word and byte is changed, and stores with several changes.
const WHOLE: u32 = 90;
const SEVERAL: u32 = 30_000;

/// A store that was levelled and segmented, or only levelled, with its frame.
pub struct Genuine {
    pub memory: Memory,
    pub held: Levelled,
    pub leaf: Leaf,
    other: Leaf,
}

/// What is needed, and what there is of it: a few words and bytes more.
const MORE: usize = 60;

/// The memory after a levelling, and after a segmenting by a sheet if there is one, as the ink account tells it. All is anything at first
/// but the state word.
fn filled(random: &mut Random, held: &Levelled, sheet: Option<LayoutParams>) -> Memory {
    let size = dots(&held.layout) + MORE;
    let words = rules::store_words(&held.layout, held.leaf.capacity) + MORE;
    let mut memory = Memory {
        store: (0..words).map(|_| random.next() as u32).collect(),
        ink: (0..size).map(|_| random.next() as u8).collect(),
        kinds: (0..size).map(|_| random.next() as u8).collect(),
    };
    memory.store[0] = 0;
    let lent = Lengths {
        store: words,
        ink: size,
        kinds: size,
        scratch: rules::scratch_of(&held.layout, held.leaf.capacity),
        out: 0,
    };
    let mut account = Account::Nothing;
    let level = Asked::Level(held.leaf.clone());
    for asked in [Some(level), sheet.map(Asked::Segment)].into_iter().flatten() {
        memory.apply(&account.tell(&Call { asked, lent }).writes);
    }
    memory
}

impl Genuine {
    /// A leaf with just enough capacity.
    fn new(random: &mut Random, side: usize, segmented: bool) -> Self {
        Genuine::with_capacity(random, side, segmented, None)
    }

    /// The same with a capacity, or one that is just enough.
    pub fn with_capacity(random: &mut Random, side: usize, segmented: bool, capacity: Option<u32>) -> Self {
        loop {
            let room = Room::new(side, 1);
            let mut leaf = good_leaf(random, &room);
            let sheet = any_sheet(random, side, side);
            let pieces = Levelled::new(&leaf).answers(&sheet).components;
            let enough = pieces.into_iter().fold(1, usize::max) as u32 + random.below(2) as u32;
            leaf.capacity = capacity.unwrap_or(enough);
            let held = Levelled::new(&leaf);
            let memory = filled(random, &held, if segmented { Some(sheet) } else { None });
            if memory.store[0] == if segmented { 2 } else { 1 } {
                let other = any_leaf(random, &Room::new(side, leaf.capacity));
                return Genuine {
                    memory,
                    held,
                    leaf,
                    other,
                };
            }
        }
    }

    /// Every entry once, with arguments that are good for the genuine store; a kind and a box that are not besides.
    fn entries(&self, random: &mut Random) -> Vec<Asked> {
        let frame = &self.held.layout;
        let inside = good_box(random, frame);
        let kind = 1 + random.below(5) as u32;
        let gray = (0..self.leaf.mask.len()).map(|_| random.next() as u8).collect();
        let sheet = match random.below(8) {
            0 => odd_sheet(random),
            _ => any_sheet(random, frame.width, frame.height),
        };
        let mut all = vec![
            Asked::Level(if random.below(4) == 0 {
                self.other.clone()
            } else {
                self.leaf.clone()
            }),
            Asked::Segment(sheet),
            Asked::Clear,
            Asked::Point([inside[0], inside[1]]),
            Asked::Rect(inside),
            Asked::Gray(gray),
            Asked::Frame,
            Asked::Figures,
            Asked::Summary,
            Asked::TwentyLines,
            Asked::PrintedSheet,
            Asked::CountDots(kind, inside),
            Asked::Dots(kind, any_box(random, frame)),
            Asked::CountDots(random.pick(&[0, 1, 6]), any_box(random, frame)),
            any_reading(random, frame),
        ];
        all.extend(LISTS.map(Asked::List));
        all
    }

    /// What the entries are lent: just enough for the genuine store, all that there is, or one word or byte less somewhere.
    fn lent(&self, random: &mut Random) -> Lengths {
        let (frame, capacity) = (&self.held.layout, self.leaf.capacity);
        let more = if random.below(2) == 0 { MORE } else { 0 };
        let mut lent = Lengths {
            store: rules::store_words(frame, capacity) + more,
            ink: dots(frame) + more,
            kinds: dots(frame) + more,
            scratch: rules::scratch_of(frame, capacity) + 4 * more,
            out: dots(frame) * 2 + 20 + frame.width + 12 * capacity as usize,
        };
        match random.below(24) {
            0 => lent.store -= 1,
            1 => lent.ink -= 1,
            2 => lent.kinds -= 1,
            3 => lent.scratch -= 1,
            4 => lent.out = random.below(12) as usize,
            _ => {}
        }
        lent
    }
}

/// Calls every entry on a store, each on the store as it is now.
pub fn every_entry(
    tally: &mut Tally,
    counts: &mut Counts,
    random: &mut Random,
    genuine: &Genuine,
    now: &Memory,
    what: &str,
) {
    let (mut memory, mut expected) = (now.clone(), now.clone());
    for asked in genuine.entries(random) {
        let writes = matches!(asked, Asked::Level(_) | Asked::Segment(_) | Asked::Clear);
        let lent = genuine.lent(random);
        let call = Call { asked, lent };
        let told = judged(&call, &memory);
        let input = || format!("{what}, of {now:?}");
        hold(tally, counts, &call, &told, [&mut memory, &mut expected], &input);
        if writes && told.number == 0 {
            memory.clone_from(now);
            expected.clone_from(now);
        }
    }
}

/// Words that stand for a word: near it, at limits, anything.
fn instead(random: &mut Random, word: u32) -> [u32; 7] {
    let limit = random.pick(&[
        2,
        3,
        45,
        4094,
        4095,
        4096,
        8192,
        8193,
        65_535,
        65_536,
        0x7FF0_0000,
        0x7FF8_0000,
    ]);
    [
        0,
        word.wrapping_add(1),
        word.wrapping_sub(1),
        random.pick(&[u32::MAX, 1 << 31, u32::MAX - 1]),
        limit,
        random.below(12) as u32,
        random.next() as u32,
    ]
}

/// Floats that stand for the skew, the slope or the unit.
fn floats(random: &mut Random) -> [f64; 12] {
    let beyond = |x: f64| f64::from_bits(x.to_bits() + 1);
    let below = |x: f64| f64::from_bits(x.to_bits() - 1);
    [
        0.0,
        -0.0,
        random.pick(&[1.0, -1.0]),
        beyond(random.pick(&[1.0, -1.0])),
        below(1.0),
        random.pick(&[45.0, -45.0]),
        beyond(random.pick(&[45.0, -45.0])),
        1.0e4,
        beyond(1.0e4),
        random.pick(&[f64::INFINITY, f64::NEG_INFINITY]),
        f64::NAN,
        random.pattern(),
    ]
}

/// Every word and byte of a small store in turn, each changed in several ways.
fn whole(tally: &mut Tally, counts: &mut Counts, random: &mut Random, genuine: &Genuine) {
    let mut now = genuine.memory.clone();
    every_entry(tally, counts, random, genuine, &now, "nothing changed");
    for at in 0..rules::store_words(&genuine.held.layout, genuine.leaf.capacity) {
        let word = now.store[at];
        for other in instead(random, word) {
            now.store[at] = other;
            every_entry(tally, counts, random, genuine, &now, &format!("word {at} was {word}"));
        }
        now.store[at] = word;
    }
    for at in [6, 8, 11] {
        for x in floats(random) {
            now.store[at..at + 2].copy_from_slice(&rules::float_words(x));
            now.store[10] = random.pick(&[0, 1, 1, 7]);
            every_entry(
                tally,
                counts,
                random,
                genuine,
                &now,
                &format!("words {at} on were others"),
            );
        }
        now.store.clone_from(&genuine.memory.store);
    }
    bytes(tally, counts, random, genuine, &mut now);
}

/// Every byte of the planes, up to the first past the frame.
fn bytes(tally: &mut Tally, counts: &mut Counts, random: &mut Random, genuine: &Genuine, now: &mut Memory) {
    for at in 0..dots(&genuine.held.layout) + 1 {
        let (ink, kind) = (now.ink[at], now.kinds[at]);
        let pairs = [
            (1 - ink.min(1), kind),
            (random.pick(&[2, 3, 128, 255]), kind),
            (ink, random.below(6) as u8),
            (ink, random.pick(&[6, 7, 255])),
            (1, 1 + random.below(5) as u8),
            (0, 0),
        ];
        for pair in pairs {
            (now.ink[at], now.kinds[at]) = pair;
            every_entry(
                tally,
                counts,
                random,
                genuine,
                now,
                &format!("byte {at} was {ink} and {kind}"),
            );
        }
        (now.ink[at], now.kinds[at]) = (ink, kind);
    }
}

/// A few changes at once; words of the header more often than others.
fn several(tally: &mut Tally, counts: &mut Counts, random: &mut Random, genuine: &Genuine) {
    let mut now = genuine.memory.clone();
    let words = rules::store_words(&genuine.held.layout, genuine.leaf.capacity);
    for _ in 0..1 + random.below(3) {
        let at = match random.below(3) {
            0 => random.below(25) as usize,
            _ => random.below(words as u64) as usize,
        };
        let others = instead(random, now.store[at]);
        now.store[at] = random.pick(&others);
        let dot = random.below(now.ink.len() as u64) as usize;
        match random.below(12) {
            0 => now.ink[dot] = random.pick(&[0, 1, 2]),
            1 => now.kinds[dot] = random.below(7) as u8,
            2 => (now.ink[dot], now.kinds[dot]) = (1, 1 + random.below(5) as u8),
            _ => {}
        }
    }
    every_entry(tally, counts, random, genuine, &now, "several words were others");
}

pub fn compare(tally: &mut Tally, counts: &mut Counts, random: &mut Random) {
    for i in 0..WHOLE {
        let side = random.pick(&[2, 4, 6, 9]);
        let genuine = Genuine::new(random, side, i % 5 != 4);
        whole(tally, counts, random, &genuine);
    }
    for i in 0..SEVERAL {
        let side = random.pick(&[5, 9, 20, 40]);
        let genuine = Genuine::new(random, side, i % 8 != 7);
        several(tally, counts, random, &genuine);
    }
}
