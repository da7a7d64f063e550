//! What a call on any store answers and leaves, spoiled or not, by the words and bytes that it is lent: document 01, "Turned back by what
//! is held", in the order of `../shared/notes/store.md`. It is written apart from the ink account, which sees no words.

use original::pixel::layout::{Block, Layout, LayoutParams, Rect, TextLine};

use super::calls::{Asked, Call, Leaf, Lengths, Memory, Told, Write};
use super::rules::{self, dots, View, COUNT_AT, FIGURES, FIGURES_AT, RECORD};
use crate::host::{Held, Which};
use crate::parts::segments::{answers, MOST_LINES, NO_LINE};

/// Whether a column's two ends are judged as a box is: x0 at most x1, x1 below the frame's width.
pub const COLUMNS_JUDGED: bool = false;

/// The lists, in the order of their places.
pub const LISTS: [Which; 6] = [
    Which::Columns,
    Which::Rules,
    Which::Graphics,
    Which::Glyphs,
    Which::Lines,
    Which::Blocks,
];

fn float_at(store: &[u32], at: usize) -> f64 {
    f64::from_bits(u64::from(store[at]) | u64::from(store[at + 1]) << 32)
}

/// What the call answers and leaves in this memory.
pub fn judged(call: &Call, memory: &Memory) -> Told {
    let (held, lent) = (memory.lent(&call.lent), &call.lent);
    let told = match &call.asked {
        Asked::Level(leaf) => level(leaf, held),
        Asked::Clear if lent.store < 1 => Err(9),
        Asked::Clear => Ok(Told::written(vec![Write::Store(0, vec![0])])),
        Asked::Segment(sheet) => segment(sheet, held, lent),
        Asked::Point(_) | Asked::Rect(_) | Asked::Gray(_) | Asked::Frame => level_reading(&call.asked, held, lent),
        _ => result_reading(&call.asked, held, lent),
    };
    told.unwrap_or_else(Told::refused)
}

fn refuse_if(bad: bool, number: u32) -> Result<(), u32> {
    if bad {
        Err(number)
    } else {
        Ok(())
    }
}

/// Levelling judges 16 by the state word alone.
fn level(leaf: &Leaf, held: Held) -> Result<Told, u32> {
    if let Some(number) = rules::leaf_number(leaf) {
        return Err(number);
    }
    let (skew, slope) = (rules::applied(leaf, leaf.skew), rules::applied(leaf, leaf.slope));
    let frame = rules::frame(leaf.width as usize, leaf.height as usize, skew, slope);
    refuse_if(held.store.len() < rules::store_words(&frame, leaf.capacity), 9)?;
    refuse_if(held.ink.len() < dots(&frame), 9)?;
    refuse_if(held.store[0] > 2, 16)?;
    refuse_if(held.store[0] > 0, 17)?;
    let mut ink = vec![0; dots(&frame)];
    for (i, &dot) in leaf.mask.iter().enumerate() {
        let (x, y) = (i % frame.page_width, i / frame.page_width);
        let row = y + frame.shear[x] as usize;
        ink[row * frame.width + x + frame.shear_x[row] as usize] = dot;
    }
    Ok(Told::written(rules::level_writes(&frame, slope, leaf.capacity, ink)))
}

/// The first tests of all other calls: 9 for a store under 64 words, 16 for its state word, `number` where that is too early, 16 for
/// sizes, P, skew and slope; and then the frame that the held slope gives.
fn head(held: Held, early: impl Fn(u32) -> bool, number: u32) -> Result<Layout, u32> {
    let store = held.store;
    refuse_if(store.len() < rules::HEADER, 9)?;
    refuse_if(store[0] > 2, 16)?;
    refuse_if(early(store[0]), number)?;
    let (skew, slope) = (float_at(store, 6), float_at(store, 8));
    let sizes = rules::side_ok(store[1]) && rules::side_ok(store[2]) && rules::capacity_ok(store[5]);
    refuse_if(!(sizes && rules::skew_ok(skew) && rules::slope_ok(slope)), 16)?;
    Ok(rules::frame(store[1] as usize, store[2] as usize, skew, slope))
}

/// 16 for shears or frame other than the held slope gives.
fn frame_spoiled(frame: &Layout, store: &[u32]) -> bool {
    let shears = rules::shears(frame);
    [store[3] as usize, store[4] as usize] != [frame.width, frame.height]
        || store[rules::HEADER..rules::HEADER + shears.len()] != shears
}

fn ink_spoiled(frame: &Layout, ink: &[u8]) -> bool {
    ink[..dots(frame)].iter().any(|&byte| byte > 1)
}

fn segment(sheet: &LayoutParams, held: Held, lent: &Lengths) -> Result<Told, u32> {
    refuse_if(sheet.validate().is_err(), 6)?;
    let frame = head(held, |state| state == 0, 18)?;
    let (size, capacity) = (dots(&frame), held.store[5]);
    let scratch = rules::scratch_of(&frame, capacity);
    refuse_if(lent.store < rules::store_words(&frame, capacity), 9)?;
    refuse_if(lent.ink < size || lent.kinds < size || lent.scratch < scratch, 9)?;
    refuse_if(frame_spoiled(&frame, held.store) || ink_spoiled(&frame, held.ink), 16)?;
    let answers = answers(&held.ink[..size], frame.width, sheet);
    let mut told = Told::refused(answers.number(capacity as usize));
    told.scratch = Some(scratch);
    if told.number == 0 {
        told.writes = rules::segment_writes(&frame, capacity, &answers);
    }
    Ok(told)
}

fn level_reading(asked: &Asked, held: Held, lent: &Lengths) -> Result<Told, u32> {
    let frame = head(held, |state| state == 0, 18)?;
    let other_size = matches!(asked, Asked::Gray(gray) if gray.len() != frame.page_width * frame.page_height);
    refuse_if(lent.store < rules::store_words(&frame, held.store[5]), 9)?;
    refuse_if(other_size || lent.out < rules::fixed_output(asked, &frame), 9)?;
    refuse_if(frame_spoiled(&frame, held.store), 16)?;
    refuse_if(rules::is_bad(asked, &frame), 8)?;
    Ok(rules::level_answer(asked, &frame, float_at(held.store, 8)))
}

fn result_reading(asked: &Asked, held: Held, lent: &Lengths) -> Result<Told, u32> {
    let frame = head(held, |state| state != 2, 19)?;
    let (size, capacity) = (dots(&frame), held.store[5]);
    refuse_if(lent.store < rules::store_words(&frame, capacity), 9)?;
    refuse_if(
        lent.ink < size || lent.kinds < size || lent.out < rules::fixed_output(asked, &frame),
        9,
    )?;
    refuse_if(frame_spoiled(&frame, held.store) || ink_spoiled(&frame, held.ink), 16)?;
    refuse_if(figures_spoiled(&frame, held.store), 16)?;
    let lists = LISTS.map(|which| {
        let at = rules::list_at(&frame, capacity, which);
        let length = held.store[COUNT_AT[which as usize]] as usize * RECORD[which as usize];
        held.store[at..at + length].to_vec()
    });
    refuse_if(lists_spoiled(&frame, &lists), 16)?;
    let pairs = held.ink.iter().zip(held.kinds).take(size);
    refuse_if(
        pairs
            .into_iter()
            .any(|(&ink, &kind)| kind > 5 || (kind == 0) != (ink == 0)),
        16,
    )?;
    let mut figures = [0; FIGURES];
    figures.copy_from_slice(&held.store[FIGURES_AT..FIGURES_AT + FIGURES]);
    let layout = said(frame, &figures, &lists);
    let view = View {
        figures,
        lists,
        layout: &layout,
        kinds: &held.kinds[..size],
    };
    Ok(rules::result_answer(asked, &layout, &view, lent.out))
}

/// 16 for the unit, by its case, and for counts above their limits.
fn figures_spoiled(frame: &Layout, store: &[u32]) -> bool {
    let unit = float_at(store, 11);
    // at most 10,000 is what `validate` asks of every length
    let most = if store[10] == 0 { 1.0e4 } else { f64::MAX };
    let capacity = store[5] as usize;
    let limits = [
        frame.width,
        3 * capacity,
        capacity,
        capacity,
        capacity.min(MOST_LINES),
        capacity,
    ];
    !(1.0..=most).contains(&unit)
        || COUNT_AT
            .iter()
            .zip(limits)
            .any(|(&at, limit)| store[at] as usize > limit)
}

/// 16 for what stands in the lists: glyph height, a block's line count, boxes, line and block numbers.
fn lists_spoiled(frame: &Layout, lists: &[Vec<u32>; 6]) -> bool {
    let (w, h) = (frame.width as u32, frame.height as u32);
    let records = |which: Which| lists[which as usize].chunks_exact(RECORD[which as usize]);
    let box_ok = |r: &[u32]| r[0] <= r[2] && r[2] < w && r[1] <= r[3] && r[3] < h;
    let (lines, blocks) = (records(Which::Lines).len() as u32, records(Which::Blocks).len() as u32);
    let boxes = LISTS[1..].iter().all(|&which| records(which).all(box_ok));
    let line_ok = |r: &[u32]| r[6] <= h && r[7] < blocks;
    let glyph_ok = |r: &[u32]| r[5] == NO_LINE || r[5] < lines;
    let column_ok = |r: &[u32]| !COLUMNS_JUDGED || (r[0] <= r[1] && r[1] < w);
    !(boxes
        && records(Which::Lines).all(line_ok)
        && records(Which::Blocks).all(|r| r[4] <= lines)
        && records(Which::Glyphs).all(glyph_ok)
        && records(Which::Columns).all(column_ok))
}

/// The page that words say, as far as `summarize` and the twenty-line measure read it. A line is in the block that its own word names.
fn said(frame: Layout, figures: &[u32; FIGURES], lists: &[Vec<u32>; 6]) -> Layout {
    let rect = |r: &[u32]| Rect {
        x0: r[0],
        y0: r[1],
        x1: r[2],
        y1: r[3],
    };
    let records = |which: Which| lists[which as usize].chunks_exact(RECORD[which as usize]);
    let lines: Vec<TextLine> = records(Which::Lines)
        .map(|r| TextLine {
            bbox: rect(r),
            glyphs: r[4],
            ink_area: u64::from(r[5]),
            glyph_height: r[6],
            block: r[7] as usize,
        })
        .collect();
    let mut blocks: Vec<Block> = records(Which::Blocks)
        .map(|r| Block {
            bbox: rect(r),
            lines: Vec::new(),
        })
        .collect();
    for (i, line) in lines.iter().enumerate() {
        blocks[line.block].lines.push(i);
    }
    Layout {
        xheight: f64::from_bits(u64::from(figures[1]) | u64::from(figures[2]) << 32),
        glyph_count: figures[5],
        glyph_ink_pixels: u64::from(figures[13]),
        ink_pixels: u64::from(figures[9]),
        lines,
        blocks,
        rules: records(Which::Rules).map(rect).collect(),
        graphics: records(Which::Graphics).map(rect).collect(),
        columns: records(Which::Columns).map(|r| (r[0], r[1])).collect(),
        ..frame
    }
}
