//! Document 01's rules that the ink account and the judge of spoiled stores share: lengths, what is handed in, what an accepted call
//! writes, and what a reading answers. What the store's words are is in `../shared/notes/store.md`.

use original::pixel::layout::{summarize, Layout, Rect};

use super::calls::{Asked, Leaf, Told, Write};
use crate::definitions::SUMMARY;
use crate::host::Which;
use crate::parts::segments::{scratch_words, Answers, MOST_CAPACITY};

pub const MOST_SIDE: u32 = 8192;
pub const HEADER: usize = 64;
pub const FIGURES_AT: usize = 10;
pub const FIGURES: usize = 15;

/// Words of a record, in the order of [`Which`], and the header's word that counts them.
pub const RECORD: [usize; 6] = [2, 4, 4, 6, 8, 5];
pub const COUNT_AT: [usize; 6] = [18, 13, 14, 15, 16, 17];

/// What the lists take of P, each from its start: columns have two words a frame column before them.
const AREAS: [usize; 6] = [0, 0, 12, 16, 22, 30];

/// Finite and at most 45 and 1 in magnitude: no NaN passes.
pub fn skew_ok(skew: f64) -> bool {
    (-45.0..=45.0).contains(&skew)
}

pub fn slope_ok(slope: f64) -> bool {
    (-1.0..=1.0).contains(&slope)
}

pub fn side_ok(side: u32) -> bool {
    (1..=MOST_SIDE).contains(&side)
}

pub fn capacity_ok(capacity: u32) -> bool {
    (1..=MOST_CAPACITY).contains(&capacity)
}

/// The lowest number of what levelling is handed, 1 to 7, if any.
pub fn leaf_number(leaf: &Leaf) -> Option<u32> {
    let dots = u64::from(leaf.width) * u64::from(leaf.height);
    let tests = [
        (1, side_ok(leaf.width) && side_ok(leaf.height)),
        (2, leaf.mask.len() as u64 == dots),
        (3, leaf.mask.iter().all(|&byte| byte < 2)),
        (4, skew_ok(leaf.skew)),
        (5, slope_ok(leaf.slope)),
        (6, leaf.sheet.validate().is_ok()),
        (7, capacity_ok(leaf.capacity)),
    ];
    tests.into_iter().find(|(_, passed)| !passed).map(|(number, _)| number)
}

/// The frame of a page under a slope: row drift round(c × slope), column drift round((−r) × slope), each less its least.
pub fn frame(page_width: usize, page_height: usize, skew: f64, slope: f64) -> Layout {
    let shear = |length: usize, slope: f64| {
        let drift: Vec<i32> = (0..length).map(|c| (c as f64 * slope).round() as i32).collect();
        let least = drift.iter().copied().min().unwrap_or(0);
        drift.into_iter().map(|d| d - least).collect::<Vec<i32>>()
    };
    let added = |shear: &[i32]| shear.iter().copied().max().unwrap_or(0) as usize;
    let rows = shear(page_width, slope);
    let height = page_height + added(&rows);
    let columns = shear(height, -slope);
    Layout {
        width: page_width + added(&columns),
        height,
        page_width,
        page_height,
        skew_deg: skew,
        shear: rows,
        shear_x: columns,
        xheight: 1.0,
        glyph_count: 0,
        glyph_ink_pixels: 0,
        ink_pixels: 0,
        lines: Vec::new(),
        glyphs: Vec::new(),
        ink: Vec::new(),
        blocks: Vec::new(),
        rules: Vec::new(),
        graphics: Vec::new(),
        columns: Vec::new(),
    }
}

pub fn dots(frame: &Layout) -> usize {
    frame.width * frame.height
}

/// Words of the store.
pub fn store_words(frame: &Layout, capacity: u32) -> usize {
    HEADER + frame.page_width + frame.height + 2 * frame.width + 40 * capacity as usize
}

/// Words of scratch.
pub fn scratch_of(frame: &Layout, capacity: u32) -> usize {
    scratch_words(dots(frame), capacity as usize)
}

/// Where a list stands in the store.
pub fn list_at(frame: &Layout, capacity: u32, which: Which) -> usize {
    let first = HEADER + frame.page_width + frame.height;
    match which {
        Which::Columns => first,
        _ => first + 2 * frame.width + AREAS[which as usize] * capacity as usize,
    }
}

/// Both shears, one after the other.
pub fn shears(frame: &Layout) -> Vec<u32> {
    let both = frame.shear.iter().chain(&frame.shear_x);
    both.map(|&s| u32::try_from(s).expect("a shear is not below 0"))
        .collect()
}

/// A float's two words, low word first.
pub fn float_words(x: f64) -> [u32; 2] {
    [x.to_bits() as u32, (x.to_bits() >> 32) as u32]
}

/// The applied value: the skew's magnitude is at least the sheet's least.
pub fn applied(leaf: &Leaf, value: f64) -> f64 {
    if leaf.skew.abs() >= leaf.sheet.shear_min_deg {
        value
    } else {
        0.0
    }
}

/// What an accepted levelling writes: state and words 1 to 9, both shears, the ink.
pub fn level_writes(frame: &Layout, slope: f64, capacity: u32, ink: Vec<u8>) -> Vec<Write> {
    let sides = [frame.page_width, frame.page_height, frame.width, frame.height];
    let mut head = vec![1];
    head.extend(sides.map(|side| side as u32));
    head.push(capacity);
    head.extend(float_words(frame.skew_deg));
    head.extend(float_words(slope));
    vec![
        Write::Store(0, head),
        Write::Store(HEADER, shears(frame)),
        Write::Ink(ink),
    ]
}

/// What an accepted segmenting writes: state, figures, lists and kinds.
pub fn segment_writes(frame: &Layout, capacity: u32, answers: &Answers) -> Vec<Write> {
    let mut writes = vec![
        Write::Store(0, vec![2]),
        Write::Store(FIGURES_AT, answers.figures().to_vec()),
        Write::Kinds(answers.kinds.clone()),
    ];
    let first = list_at(frame, capacity, Which::Columns);
    for (at, list) in answers.lists(frame.width, capacity as usize) {
        writes.push(Write::Store(first + at, list));
    }
    writes
}

/// What readings of results read: the store's words 10 to 24, each list's words, the page as `summarize` takes it, and the kind of each
/// frame dot.
pub struct View<'a> {
    pub figures: [u32; FIGURES],
    pub lists: [Vec<u32>; 6],
    pub layout: &'a Layout,
    pub kinds: &'a [u8],
}

/// The length of an output that is fixed beforehand.
pub fn fixed_output(asked: &Asked, frame: &Layout) -> usize {
    match asked {
        Asked::Point(_) => 2,
        Asked::Rect(_) => 4,
        Asked::Gray(_) => dots(frame),
        Asked::Frame => 8,
        Asked::Figures => FIGURES,
        Asked::Summary => SUMMARY.len(),
        _ => 0,
    }
}

/// Both corners inside the frame, and neither side reversed.
fn inside(frame: &Layout, [x0, y0, x1, y1]: [u32; 4]) -> bool {
    x0 <= x1 && (x1 as usize) < frame.width && y0 <= y1 && (y1 as usize) < frame.height
}

/// A point outside the frame, a bad box, a kind outside 1 to 5: refusal 8.
pub fn is_bad(asked: &Asked, frame: &Layout) -> bool {
    match asked {
        Asked::Point([x, y]) => !inside(frame, [*x, *y, *x, *y]),
        Asked::Rect(corners) => !inside(frame, *corners),
        Asked::CountDots(kind, corners) | Asked::Dots(kind, corners) => {
            !(1..=5).contains(kind) || !inside(frame, *corners)
        }
        _ => false,
    }
}

/// What a reading that needs only a levelled page answers.
pub fn level_answer(asked: &Asked, frame: &Layout, slope: f64) -> Told {
    let word = |number: i64| u64::from(number as i32 as u32);
    let filled: Vec<u64> = match asked {
        Asked::Point([x, y]) => {
            let (column, row) = frame.to_page(*x, *y);
            vec![word(column), word(row)]
        }
        Asked::Rect([x0, y0, x1, y1]) => {
            let [x0, y0, x1, y1] = [*x0, *y0, *x1, *y1];
            frame.rect_to_page(&Rect { x0, y0, x1, y1 }).map(u64::from).to_vec()
        }
        Asked::Gray(gray) => frame.level_gray(gray).into_iter().map(u64::from).collect(),
        _ => {
            let sides = [frame.page_width, frame.page_height, frame.width, frame.height].map(|side| side as u32);
            let floats = [float_words(frame.skew_deg), float_words(slope)].concat();
            sides.into_iter().chain(floats).map(u64::from).collect()
        }
    };
    Told::answered(0, filled)
}

/// What a reading of results answers, 8 and the late 9 among it; its output has so many words.
pub fn result_answer(asked: &Asked, frame: &Layout, view: &View, out: usize) -> Told {
    if is_bad(asked, frame) {
        return Told::refused(8);
    }
    let wide = |words: &[u32]| words.iter().map(|&word| u64::from(word)).collect::<Vec<u64>>();
    let (value, filled) = match asked {
        Asked::Figures => {
            let mut figures = view.figures;
            figures[0] = figures[0].min(1);
            (0, wide(&figures))
        }
        Asked::Summary => {
            let features = summarize(view.layout).features;
            (0, SUMMARY.iter().map(|&name| features[name].to_bits()).collect())
        }
        Asked::List(which) => {
            let words = &view.lists[*which as usize];
            (words.len() / RECORD[*which as usize], wide(words))
        }
        Asked::TwentyLines => (twenty_lines(view.layout) as usize, Vec::new()),
        Asked::CountDots(kind, corners) => (dot_list(frame, view.kinds, *kind, *corners).len() / 2, Vec::new()),
        Asked::Dots(kind, corners) => {
            let list = dot_list(frame, view.kinds, *kind, *corners);
            (list.len() / 2, wide(&list))
        }
        Asked::PrintedSheet => {
            let text = sheet_text(frame, view);
            (text.len(), text.bytes().map(u64::from).collect())
        }
        _ => unreachable!("not a reading of results"),
    };
    if out < filled.len() {
        return Told::refused(9);
    }
    Told::answered(value as u32, filled)
}

/// The last digits of a number, as many as its field has.
fn digits(count: usize, number: u32) -> String {
    let all = format!("{number:08X}");
    all[8 - count..].to_owned()
}

/// The printed sheet (01, "Leaves to try"), from the words that a store has for it: each kind's list, and the digits of a record's words.
fn sheet_text(frame: &Layout, view: &View) -> String {
    const BOX: [usize; 4] = [4; 4];
    let kinds: [(Which, Vec<usize>); 6] = [
        (Which::Lines, [&BOX[..], &[8, 8, 4, 3]].concat()),
        (Which::Blocks, [&BOX[..], &[3]].concat()),
        (Which::Rules, BOX.to_vec()),
        (Which::Graphics, BOX.to_vec()),
        (Which::Glyphs, [&BOX[..], &[8, 3]].concat()),
        (Which::Columns, vec![4, 4]),
    ];
    let sides = [frame.width, frame.height, frame.page_width, frame.page_height];
    let mut text = "0001".to_owned();
    text.extend(sides.map(|side| digits(4, side as u32)));
    text += &format!("{:08X}{:08X}\n", view.figures[2], view.figures[1]);
    for (i, (which, widths)) in kinds.iter().enumerate() {
        for record in view.lists[*which as usize].chunks_exact(widths.len()) {
            text += &format!("{:02X}", i + 1);
            text.extend(record.iter().zip(widths).map(|(&word, &width)| digits(width, word)));
            text.push('\n');
        }
    }
    text += "07";
    text.extend(view.figures[9..].iter().map(|&dots| digits(8, dots)));
    text + "\n"
}

/// 10 times the median of the differences of y0 + y1 between following lines of a block, one below 0 as 0; 0 without any.
fn twenty_lines(layout: &Layout) -> u32 {
    let centre = |line: usize| layout.lines[line].bbox.y0 + layout.lines[line].bbox.y1;
    let pairs = layout.blocks.iter().flat_map(|block| block.lines.windows(2));
    let mut pitches: Vec<u32> = pairs
        .map(|pair| centre(pair[1]).saturating_sub(centre(pair[0])))
        .collect();
    pitches.sort_unstable();
    pitches.get(pitches.len() / 2).map_or(0, |median| 10 * median)
}

/// The page dots of a kind whose frame place lies in a box, column and row of each: by page row, then page column (DECISIONS 12).
fn dot_list(frame: &Layout, kinds: &[u8], kind: u32, [x0, y0, x1, y1]: [u32; 4]) -> Vec<u32> {
    let mut list = Vec::new();
    for y in 0..frame.page_height {
        for x in 0..frame.page_width {
            let row = y + frame.shear[x] as usize;
            let column = x + frame.shear_x[row] as usize;
            let inside = (x0..=x1).contains(&(column as u32)) && (y0..=y1).contains(&(row as u32));
            if inside && u32::from(kinds[row * frame.width + column]) == kind {
                list.extend([x as u32, y as u32]);
            }
        }
    }
    list
}
