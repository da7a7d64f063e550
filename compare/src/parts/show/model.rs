//! What the show program is to print (document 01, "Leaves to try"; DECISIONS 1 to 3): the input read by 01's words, the page handed to
//! the original Rust, its results written down field by field.

use std::fmt::Write;

use original::pixel::layout::{compare_sorted, LayoutParams, Rect};
use original::{level_mask, segment_mask};

use crate::parts::segments::{Answers, NO_LINE};

/// Document 01's limits of the show program: the longest side, and P.
pub const MOST_SIDE: usize = 16;
const CAPACITY: usize = 64;

/// The digits of line one: width, height, skew, slope.
const HEAD: usize = 4 + 4 + 16 + 16;

/// The printed edition.
const EDITION: u32 = 1;

/// An input that is well made.
pub struct Leaf {
    pub width: usize,
    pub height: usize,
    pub skew: f64,
    pub slope: f64,
    /// A byte a dot, row by row.
    pub mask: Vec<u8>,
}

/// What is printed for an input, and the results where it is a sheet.
pub struct Model {
    pub printed: Vec<u8>,
    pub outcome: Outcome,
}

pub enum Outcome {
    Sheet(Box<Answers>),
    Refused(u32),
}

/// Document 01's sheet of the show program.
pub fn show_sheet() -> LayoutParams {
    LayoutParams {
        glyph_min_area: 1,
        glyph_max_extent_frac: 1.0,
        xheight_min_area: 1,
        xheight_fallback_px: 1.0,
        rule_min_len_xh: 4.0,
        rule_max_thick_xh: 0.5,
        rule_run_xh: 4.0,
        graphic_min_xh: 8.0,
        smear_xh: 1.0,
        line_min_glyphs: 1,
        line_min_height_xh: 0.5,
        line_max_height_xh: 3.0,
        block_min_overlap: 0.5,
        block_gap_margin_lines: 0.5,
        block_max_gap_lines: 3.0,
        column_gap_xh: 1.0,
        column_cover_frac: 0.0,
        shear_min_deg: 0.0,
    }
}

/// What is printed for this input.
pub fn show(input: &[u8]) -> Model {
    match outcome(input) {
        Outcome::Sheet(answers) => Model {
            printed: sheet_text(&answers).into_bytes(),
            outcome: Outcome::Sheet(answers),
        },
        Outcome::Refused(number) => Model {
            printed: format!("FF{number:02X}\n").into_bytes(),
            outcome: Outcome::Refused(number),
        },
    }
}

/// 0 for what is not well made; else 1, 4, 5, or 20, the lowest that applies; else a sheet.
fn outcome(input: &[u8]) -> Outcome {
    let Some(leaf) = read(input) else {
        return Outcome::Refused(0);
    };
    let tests = [
        (1, leaf.width > 0 && leaf.height > 0),
        (4, leaf.skew.is_finite() && leaf.skew.abs() <= 45.0),
        (5, leaf.slope.is_finite() && leaf.slope.abs() <= 1.0),
    ];
    if let Some((number, _)) = tests.into_iter().find(|(_, passed)| !passed) {
        return Outcome::Refused(number);
    }
    let answers = answers(&leaf);
    match answers.number(CAPACITY) {
        0 => Outcome::Sheet(Box::new(answers)),
        number => Outcome::Refused(number),
    }
}

/// The number that upper-case hexadecimal digits spell, of which there are at most 16; nothing where a byte is none.
fn number(digits: &[u8]) -> Option<u64> {
    let value = |&byte: &u8| match byte {
        b'0'..=b'9' => Some(u64::from(byte - b'0')),
        b'A'..=b'F' => Some(u64::from(byte - b'A') + 10),
        _ => None,
    };
    digits.iter().try_fold(0, |n, byte| Some(n * 16 + value(byte)?))
}

/// The leaf that the lines say, each with a line feed after it; nothing where they are not so made or a side is above 16.
fn read(input: &[u8]) -> Option<Leaf> {
    let mut lines = input.strip_suffix(b"\n")?.split(|&byte| byte == b'\n');
    let head = lines.next()?;
    if head.len() != HEAD {
        return None;
    }
    let (width, height) = (number(&head[..4])? as usize, number(&head[4..8])? as usize);
    let (skew, slope) = (number(&head[8..24])?, number(&head[24..])?);
    if width > MOST_SIDE || height > MOST_SIDE {
        return None;
    }
    let rows: Vec<Vec<u8>> = lines.map(|line| row(line, width)).collect::<Option<_>>()?;
    (rows.len() == height).then(|| Leaf {
        width,
        height,
        skew: f64::from_bits(skew),
        slope: f64::from_bits(slope),
        mask: rows.concat(),
    })
}

/// A row's dots, four a digit, left highest; nothing where there are more or fewer digits, or the last one's padding is not zero.
fn row(line: &[u8], width: usize) -> Option<Vec<u8>> {
    let digits = width.div_ceil(4);
    if line.len() != digits {
        return None;
    }
    let bits = number(line)?;
    let padding = 4 * digits - width;
    let dot = |x: usize| (bits >> (4 * digits - 1 - x) & 1) as u8;
    (bits % (1 << padding) == 0).then(|| (0..width).map(dot).collect())
}

/// The original's results: of the whole, and of the plane that it levels.
fn answers(leaf: &Leaf) -> Answers {
    let p = show_sheet();
    let (width, height) = (leaf.width, leaf.height);
    let layout = segment_mask(&leaf.mask, width, height, leaf.skew, leaf.slope, &p).expect("the page is accepted");
    let levelled = level_mask(leaf.mask.clone(), width, height, leaf.skew, leaf.slope, &p);
    let (components, measured, kinds) = compare_sorted(levelled.ink, levelled.width, levelled.height, &p);
    Answers {
        layout,
        components,
        measured,
        kinds,
    }
}

/// A box: x0 y0 x1 y1, four digits each.
fn corners(r: &Rect) -> String {
    format!("{:04X}{:04X}{:04X}{:04X}", r.x0, r.y0, r.x1, r.y1)
}

/// The printed sheet, a line an entry, kind by kind.
fn sheet_text(answers: &Answers) -> String {
    let l = &answers.layout;
    let mut lines = Vec::new();
    let sides = [l.width, l.height, l.page_width, l.page_height].map(|side| format!("{side:04X}"));
    lines.push(format!("00{EDITION:02X}{}{:016X}", sides.concat(), l.xheight.to_bits()));
    lines.extend(l.lines.iter().map(|line| {
        let rest = format!(
            "{:08X}{:08X}{:04X}{:03X}",
            line.glyphs, line.ink_area, line.glyph_height, line.block
        );
        format!("01{}{rest}", corners(&line.bbox))
    }));
    let block = |block: &original::pixel::layout::Block| format!("02{}{:03X}", corners(&block.bbox), block.lines.len());
    lines.extend(l.blocks.iter().map(block));
    lines.extend(l.rules.iter().map(|rule| format!("03{}", corners(rule))));
    lines.extend(l.graphics.iter().map(|graphic| format!("04{}", corners(graphic))));
    lines.extend(l.glyphs.iter().map(|glyph| {
        let line = glyph.line.map_or(NO_LINE as usize, |line| line);
        format!("05{}{:08X}{line:03X}", corners(&glyph.bbox), glyph.area)
    }));
    lines.extend(l.columns.iter().map(|(x0, x1)| format!("06{x0:04X}{x1:04X}")));
    let dots = |kind: u8| answers.kinds.iter().filter(|&&k| k == kind).count();
    let kinds: String = (1..=5).map(|kind| format!("{:08X}", dots(kind))).collect();
    lines.push(format!("07{:08X}{kinds}", l.ink_pixels));
    lines.iter().fold(String::new(), |mut text, line| {
        writeln!(text, "{line}").expect("a String takes all");
        text
    })
}

#[cfg(test)]
mod tests {
    use super::*;

    const INPUT: &str = "0006000400000000000000000000000000000000\n00\n50\n50\n00\n";

    const PRINTED: &str = "000100060004000600044000000000000000
01000100010003000200000002000000040002000
020001000100030002001
05000100010001000200000002000
05000300010003000200000002000
0600010003
07000000040000000000000000000000000000000400000000
";

    /// Document 01's printed leaf.
    #[test]
    fn the_leaf_of_document_01() {
        assert_eq!(String::from_utf8_lossy(&show(INPUT.as_bytes()).printed), PRINTED);
    }

    #[test]
    fn refusals() {
        let printed = |text: &str| String::from_utf8(show(text.as_bytes()).printed).expect("text");
        assert_eq!(printed(""), "FF00\n");
        assert_eq!(printed(INPUT.trim_end()), "FF00\n");
        assert_eq!(printed(&INPUT.replacen("50", "51", 1)), "FF00\n");
        assert_eq!(printed("0000000000000000000000000000000000000000\n"), "FF01\n");
        assert_eq!(printed(&INPUT.replacen("000600040", "000600047", 1)), "FF04\n");
    }
}
