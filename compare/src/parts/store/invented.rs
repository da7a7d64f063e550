//! Stores with results that no page gives but that are not spoiled: counts up to their limits, boxes anywhere in the frame, lines in any
//! block. Then the same with one thing just past its limit.

use original::pixel::layout::Layout;

use super::calls::Memory;
use super::counts::Counts;
use super::judge::LISTS;
use super::making::good_box;
use super::rules::{self, dots, COUNT_AT, RECORD};
use super::spoiled::{every_entry, Genuine};
use crate::host::Which;
use crate::parts::segments::{MOST_LINES, NO_LINE};
use crate::random::Random;
use crate::tally::Tally;

const STORES: u32 = 12_000;

/// Stores whose capacity lets the greatest count of lines be passed.
const ROOMY: u32 = 12;

/// How many records each list may have, in the order of [`LISTS`].
fn limits(frame: &Layout, capacity: u32) -> [usize; 6] {
    let most = capacity as usize;
    [frame.width, 3 * most, most, most, most.min(MOST_LINES), most]
}

/// A count up to a limit: none, all, or any number between.
fn count(random: &mut Random, limit: usize) -> usize {
    match random.below(4) {
        0 => limit,
        1 => 0,
        _ => random.below(limit as u64 + 1) as usize,
    }
}

/// A record of a list that is not spoiled where there are so many lines and blocks.
fn record(random: &mut Random, frame: &Layout, which: Which, lines: usize, blocks: usize) -> Vec<u32> {
    let number = |random: &mut Random, end: usize| random.below(end.max(1) as u64) as u32;
    let corners = good_box(random, frame);
    let mut words = corners.to_vec();
    match which {
        // nobody judges a column's ends
        Which::Columns => {
            let any = random.next() as u32;
            words = vec![random.pick(&[corners[0], any]), corners[2]];
        }
        Which::Rules | Which::Graphics => {}
        Which::Glyphs => {
            let line = if random.below(3) == 0 || lines == 0 {
                NO_LINE
            } else {
                number(random, lines)
            };
            words.extend([random.next() as u32, line]);
        }
        Which::Lines => {
            let any = number(random, frame.height);
            let height = random.pick(&[frame.height as u32, any, 0]);
            let ink = random.pick(&[NO_LINE, 0, u32::MAX]);
            words.extend([random.next() as u32, ink, height, number(random, blocks)]);
        }
        Which::Blocks => {
            let any = number(random, lines);
            words.push(random.pick(&[lines as u32, any]));
        }
    }
    words
}

/// The state, a unit that may stand, and any counts of dots.
fn invent_figures(random: &mut Random, now: &mut Memory) {
    let any = 1.0 + 20.0 * random.fraction();
    let unit = random.pick(&[1.0, 1.0e4, any, 3.0]);
    now.store[0] = 2;
    now.store[10] = random.pick(&[0, 1, u32::MAX]);
    now.store[11..13].copy_from_slice(&rules::float_words(unit));
    for word in &mut now.store[19..25] {
        let any = random.next() as u32;
        *word = random.pick(&[0, 1, 1000, u32::MAX, any]);
    }
}

/// Results over a levelled page: figures, lists and kinds.
fn invent(random: &mut Random, genuine: &Genuine) -> Memory {
    let (frame, capacity) = (&genuine.held.layout, genuine.leaf.capacity);
    let mut now = genuine.memory.clone();
    invent_figures(random, &mut now);
    let limits = limits(frame, capacity);
    let [.., lines, blocks] = limits.map(|limit| count(random, limit));
    // a line is in some block
    let (lines, blocks) = if blocks == 0 { (0, 0) } else { (lines, blocks) };
    for which in LISTS {
        let at = rules::list_at(frame, capacity, which);
        let limit = limits[which as usize];
        let records = match which {
            Which::Lines => lines,
            Which::Blocks => blocks,
            _ => count(random, limit),
        };
        now.store[COUNT_AT[which as usize]] = records as u32;
        // what lies behind the records is good too, so that a count past its limit is all that is wrong
        let behind = match which {
            Which::Lines => capacity as usize,
            Which::Blocks => limit + 1,
            _ => limit,
        };
        for i in 0..behind {
            let words = record(random, frame, which, lines, blocks);
            let from = at + i * words.len();
            now.store[from..from + words.len()].copy_from_slice(&words);
        }
    }
    for i in 0..dots(frame) {
        now.kinds[i] = now.ink[i] * (1 + random.below(5) as u8);
    }
    now
}

/// A count just past its limit.
fn pass_a_count(genuine: &Genuine, now: &mut Memory, which: Which) -> String {
    let limit = limits(&genuine.held.layout, genuine.leaf.capacity)[which as usize];
    now.store[COUNT_AT[which as usize]] = limit as u32 + 1;
    format!("count of {which:?} past its limit")
}

/// One thing just past its limit.
fn pass_a_limit(random: &mut Random, genuine: &Genuine, now: &mut Memory) -> String {
    let (frame, capacity) = (&genuine.held.layout, genuine.leaf.capacity);
    let which = random.pick(&LISTS);
    let (list, at) = (which as usize, rules::list_at(frame, capacity, which));
    let records = now.store[COUNT_AT[list]];
    let (w, h) = (frame.width as u32, frame.height as u32);
    if records == 0 || random.below(3) == 0 {
        return pass_a_count(genuine, now, which);
    }
    let (lines, blocks) = (now.store[16], now.store[17]);
    let from = at + random.below(u64::from(records)) as usize * RECORD[list];
    let record = &mut now.store[from..from + RECORD[list]];
    let field = random.below(record.len() as u64) as usize;
    record[field] = match (which, field) {
        (Which::Columns, 0) => record[1] + 1,
        (Which::Columns, _) => w,
        (_, 0) => record[2] + 1,
        (_, 1) => record[3] + 1,
        (_, 2) => w,
        (_, 3) => h,
        (Which::Glyphs, 5) => lines,
        (Which::Lines, 6) => h + 1,
        (Which::Lines, 7) => blocks,
        (Which::Blocks, 4) => lines + 1,
        _ => random.next() as u32,
    };
    format!("field {field} of a record of {which:?} changed")
}

/// Stores whose capacity is around the most lines: each count at its limit or below, then past it.
fn roomy(tally: &mut Tally, counts: &mut Counts, random: &mut Random) {
    for _ in 0..ROOMY {
        let capacity = MOST_LINES as u32 + random.pick(&[0, 1, 2]);
        let genuine = Genuine::with_capacity(random, 40, false, Some(capacity));
        let now = invent(random, &genuine);
        every_entry(tally, counts, random, &genuine, &now, "invented results");
        for which in LISTS {
            let mut past = now.clone();
            let what = pass_a_count(&genuine, &mut past, which);
            every_entry(tally, counts, random, &genuine, &past, &what);
        }
    }
}

pub fn compare(tally: &mut Tally, counts: &mut Counts, random: &mut Random) {
    for _ in 0..STORES {
        let side = random.pick(&[1, 3, 6, 9, 24]);
        let genuine = Genuine::with_capacity(random, side, false, None);
        let now = invent(random, &genuine);
        every_entry(tally, counts, random, &genuine, &now, "invented results");
        for _ in 0..4 {
            let mut past = now.clone();
            let what = pass_a_limit(random, &genuine, &mut past);
            every_entry(tally, counts, random, &genuine, &past, &what);
        }
    }
    roomy(tally, counts, random);
}
