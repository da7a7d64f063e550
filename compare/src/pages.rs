//! Pages of every kind and size, the same in every run. A page is a mask, a byte a dot, row by row: 0 blank, 1 ink.

use crate::random::Random;

/// What a page looks like. `{}` gives its name in the benchmark's lines.
#[derive(Clone, Copy, Debug, PartialEq)]
pub enum Kind {
    /// A scanned leaf: columns of lines of words of glyphs, a ruling or two, specks.
    Text,
    /// A printed form: a grid of rulings one to three dots thick that jog by a dot, words in its cells.
    Table,
    /// Discs of many sizes, some overlapping.
    Blobs,
    /// No ink.
    Blank,
    /// Nothing but ink.
    Solid,
    /// Each dot ink by itself, with this chance in a hundred.
    Noise(u8),
    /// Teeth one dot wide and one apart, joined by the last row alone: the pieces of every row but one are apart.
    Comb,
    /// One arm a dot wide that winds inwards, a blank dot between its turns.
    Spiral,
    /// Blocks of three by three that touch by their corners, each below and left of the one before: every block starts a
    /// piece that turns out to be an old one.
    Staircase,
    /// Lines a dot wide that fall to the right, one column in four.
    Diagonal,
    /// Lines a dot wide that fall to the left, one column in four.
    Antidiagonal,
    /// Every second dot: as many runs as a page can have, all one piece.
    Checkerboard,
    /// Rows of ink one dot high, every second row.
    Stripes,
    /// One dot of ink, anywhere.
    Dot,
    /// As many as 4,000 lines of fifteen glyphs.
    Lines,
    /// As many as 40 lines of fifteen hundred glyphs.
    FewLines,
}

/// Every kind, noise at the four densities of the benchmark.
pub const KINDS: [Kind; 17] = [
    Kind::Text,
    Kind::Table,
    Kind::Blobs,
    Kind::Blank,
    Kind::Solid,
    Kind::Noise(10),
    Kind::Noise(30),
    Kind::Noise(50),
    Kind::Noise(70),
    Kind::Comb,
    Kind::Spiral,
    Kind::Staircase,
    Kind::Diagonal,
    Kind::Antidiagonal,
    Kind::Checkerboard,
    Kind::Stripes,
    Kind::Dot,
];

/// Kinds for the time of many lines and of many glyphs in a line. They stand in no list of answers.
pub const LINED: [Kind; 2] = [Kind::Lines, Kind::FewLines];

impl std::fmt::Display for Kind {
    fn fmt(&self, f: &mut std::fmt::Formatter) -> std::fmt::Result {
        match self {
            Kind::Noise(percent) => write!(f, "noise{percent}"),
            other => f.write_str(&format!("{other:?}").to_lowercase()),
        }
    }
}

/// The kind of this name.
pub fn named(name: &str) -> Option<Kind> {
    KINDS.into_iter().chain(LINED).find(|kind| kind.to_string() == name)
}

impl Kind {
    /// A page of this kind. Neither side is 0.
    pub fn page(self, width: usize, height: usize, random: &mut Random) -> Vec<u8> {
        let mut sheet = Sheet {
            width,
            height,
            mask: vec![0; width * height],
        };
        match self {
            Kind::Text => text(&mut sheet, random),
            Kind::Table => table(&mut sheet, random),
            Kind::Blobs => blobs(&mut sheet, random),
            Kind::Blank => {}
            Kind::Solid => sheet.mask.fill(1),
            Kind::Noise(percent) => noise(&mut sheet, random, percent),
            Kind::Comb => sheet.each(|x, y| x % 2 == 0 || y + 1 == height),
            Kind::Spiral => spiral(&mut sheet),
            Kind::Staircase => sheet.each(|x, y| (x / 3 + y / 3) % 4 == 0),
            Kind::Diagonal => sheet.each(|x, y| (x + 3 * y) % 4 == 0),
            Kind::Antidiagonal => sheet.each(|x, y| (x + y) % 4 == 0),
            Kind::Checkerboard => sheet.each(|x, y| (x + y) % 2 == 0),
            Kind::Stripes => sheet.each(|_, y| y % 2 == 0),
            Kind::Dot => {
                let dot = random.below((width * height) as u64) as usize;
                sheet.mask[dot] = 1;
            }
            Kind::Lines => lines(&mut sheet, random, 15, 4000),
            Kind::FewLines => lines(&mut sheet, random, 1500, 40),
        }
        sheet.mask
    }
}

struct Sheet {
    width: usize,
    height: usize,
    mask: Vec<u8>,
}

impl Sheet {
    /// Ink where the test says so.
    fn each(&mut self, test: impl Fn(usize, usize) -> bool) {
        for y in 0..self.height {
            for x in 0..self.width {
                self.mask[y * self.width + x] = u8::from(test(x, y));
            }
        }
    }

    /// A box of ink, its far ends excluded, what lies off the page left out.
    fn bar(&mut self, x0: usize, y0: usize, x1: usize, y1: usize) {
        for y in y0..y1.min(self.height) {
            for x in x0..x1.min(self.width) {
                self.mask[y * self.width + x] = 1;
            }
        }
    }

    fn disc(&mut self, x: usize, y: usize, radius: usize) {
        for dy in 0..=2 * radius {
            for dx in 0..=2 * radius {
                let (a, b) = (dx.abs_diff(radius), dy.abs_diff(radius));
                if a * a + b * b <= radius * radius {
                    let (px, py) = (x + dx, y + dy);
                    self.bar(px, py, px + 1, py + 1);
                }
            }
        }
    }

    /// The x-height of the page's text: 24 dots on a large leaf, less on a small one.
    fn unit(&self) -> usize {
        (3 + self.width.min(self.height) / 128).min(24)
    }
}

/// A number from `low` to `high`, both ends included.
fn from_to(random: &mut Random, low: usize, high: usize) -> usize {
    low + random.below((high - low + 1) as u64) as usize
}

/// A glyph in the box at (x, y), `wide` by `unit`: stems, bars and sometimes an ascender or a tail. All touch.
fn glyph(sheet: &mut Sheet, random: &mut Random, x: usize, y: usize, wide: usize, unit: usize) {
    let pen = (unit / 6).max(1);
    let (right, foot) = (x + wide.saturating_sub(pen), y + unit.saturating_sub(pen));
    let rise = if random.below(4) == 0 { unit / 2 } else { 0 };
    let fall = if random.below(8) == 0 { unit / 2 } else { 0 };
    sheet.bar(x, y.saturating_sub(rise), x + pen, y + unit + fall);
    match random.below(4) {
        0 => sheet.bar(right, y, right + pen, y + unit),
        1 => sheet.bar(right, y, right + pen, y + unit / 2),
        _ => {}
    }
    match random.below(5) {
        0 => sheet.bar(x, y, right + pen, y + pen),
        1 => sheet.bar(x, foot, right + pen, foot + pen),
        2 => sheet.bar(x, y + unit / 2, right + pen, y + unit / 2 + pen),
        _ => {
            sheet.bar(x, y, right + pen, y + pen);
            sheet.bar(x, foot, right + pen, foot + pen);
        }
    }
}

/// Words from column `x` to `end`, on the line whose x-height starts in row `y`.
fn words(sheet: &mut Sheet, random: &mut Random, mut x: usize, end: usize, y: usize, unit: usize) {
    let mut left = from_to(random, 1, 10);
    while x < end {
        let wide = from_to(random, (unit / 2).max(1), unit);
        if x + wide > end {
            return;
        }
        glyph(sheet, random, x, y, wide, unit);
        x += wide + (unit / 5).max(1);
        left -= 1;
        if left == 0 {
            x += unit * 2 / 3;
            left = from_to(random, 1, 10);
        }
    }
}

fn text(sheet: &mut Sheet, random: &mut Random) {
    let unit = sheet.unit();
    let (width, height) = (sheet.width, sheet.height);
    let (margin, pitch) = (width / 12, unit * 9 / 4);
    let columns = if width < 50 * unit { 1 } else { 2 };
    let across = (width - 2 * margin) / columns;
    // a ruling under the head of the leaf, and one between the columns
    let head = height / 12;
    if head > 1 {
        sheet.bar(margin, head, width - margin, head + (unit / 8).max(1));
    }
    if columns == 2 {
        sheet.bar(width / 2, head + pitch, width / 2 + (unit / 10).max(1), height - head);
    }
    for column in 0..columns {
        let (from, end) = (
            margin + column * across,
            margin + (column + 1) * across - unit.min(across / 2),
        );
        let mut y = head + pitch;
        while y + pitch < height - head / 2 {
            // the last line of a paragraph is short, and a blank line follows it
            let last = random.below(7) == 0;
            let short = if last { (end - from) / 2 } else { 0 };
            words(sheet, random, from, end - short, y, unit);
            y += if last { 2 * pitch } else { pitch };
        }
    }
    for _ in 0..width * height / 20_000 {
        let (x, y) = (from_to(random, 0, width - 1), from_to(random, 0, height - 1));
        let size = from_to(random, 1, 2);
        sheet.bar(x, y, x + size, y + 1);
    }
}

/// At most `most` lines of so many glyphs, side by side as far as there is room: a glyph is three dots wide and six or eight high.
fn lines(sheet: &mut Sheet, random: &mut Random, glyphs: usize, most: usize) {
    let (pitch, across) = (15, 5 * glyphs + 25);
    let columns = sheet.width / across;
    let rows = sheet.height / pitch;
    for line in 0..(columns * rows).min(most) {
        let (x, y) = (line % columns * across, line / columns * pitch + 4);
        for glyph in 0..glyphs {
            let rise = 2 * random.below(2) as usize;
            sheet.bar(x + 5 * glyph, y - rise, x + 5 * glyph + 3, y + 6);
        }
    }
}

fn table(sheet: &mut Sheet, random: &mut Random) {
    let unit = sheet.unit();
    let (width, height) = (sheet.width, sheet.height);
    let mut y = 0;
    while y < height {
        let (thick, turn) = (from_to(random, 1, 3), from_to(random, 0, width));
        sheet.bar(0, y, turn, y + thick);
        sheet.bar(turn, y + 1, width, y + 1 + thick);
        y += from_to(random, 2 * unit, 6 * unit);
    }
    let mut x = 0;
    while x < width {
        let (thick, turn) = (from_to(random, 1, 3), from_to(random, 0, height));
        sheet.bar(x, 0, x + thick, turn);
        sheet.bar(x + 1, turn, x + 1 + thick, height);
        x += from_to(random, 4 * unit, 20 * unit);
    }
    for _ in 0..width * height / (unit * unit * 60) {
        let (x, y) = (from_to(random, 0, width - 1), from_to(random, 0, height - 1));
        words(sheet, random, x, (x + 5 * unit).min(width), y, unit);
    }
}

fn blobs(sheet: &mut Sheet, random: &mut Random) {
    let (width, height) = (sheet.width, sheet.height);
    let most = (2 + width.min(height) / 64).min(24);
    for _ in 0..(width * height / (most * most * 8)).max(1) {
        let radius = from_to(random, 0, most);
        let (x, y) = (from_to(random, 0, width - 1), from_to(random, 0, height - 1));
        sheet.disc(x, y, radius);
    }
}

fn noise(sheet: &mut Sheet, random: &mut Random, percent: u8) {
    // 32 bits a dot
    let below = (u64::from(percent) << 32) / 100;
    for pair in sheet.mask.chunks_mut(2) {
        let bits = random.next();
        for (dot, bits) in pair.iter_mut().zip([bits >> 32, bits & 0xFFFF_FFFF]) {
            *dot = u8::from(bits < below);
        }
    }
}

/// From the upper left corner right, down, left, up, and so on, each arm until a blank dot is left before the next ink.
fn spiral(sheet: &mut Sheet) {
    let (width, height) = (sheet.width as i64, sheet.height as i64);
    let (mut left, mut top, mut right, mut foot) = (0, 0, width - 1, height - 1);
    let mut from = 0;
    while left <= right && top <= foot {
        row(sheet, top, from, right);
        column(sheet, right, top, foot);
        if top < foot {
            row(sheet, foot, left, right);
        }
        if left < right {
            column(sheet, left, top + 2, foot);
        }
        // the next turn starts from the end of the last arm, two rows below the first
        from = left;
        left += 2;
        top += 2;
        right -= 2;
        foot -= 2;
    }
}

/// Ink on a row, both ends included; nothing where they are the wrong way round.
fn row(sheet: &mut Sheet, y: i64, from: i64, to: i64) {
    if from <= to && y >= 0 {
        sheet.bar(from as usize, y as usize, to as usize + 1, y as usize + 1);
    }
}

/// Ink on a column, both ends included; nothing where they are the wrong way round.
fn column(sheet: &mut Sheet, x: i64, from: i64, to: i64) {
    if from <= to && x >= 0 {
        sheet.bar(x as usize, from as usize, x as usize + 1, to as usize + 1);
    }
}

#[cfg(test)]
mod tests {
    use super::*;
    use original::pixel::components::label_8;

    fn pieces(kind: Kind, width: usize, height: usize) -> usize {
        let mask = kind.page(width, height, &mut Random::new());
        label_8(&mask, width, height).components.len()
    }

    /// Every kind can be made at every small size.
    #[test]
    fn any_size() {
        for kind in KINDS.into_iter().chain(LINED) {
            for width in 1..40 {
                for height in 1..40 {
                    let mask = kind.page(width, height, &mut Random::new());
                    assert_eq!(mask.len(), width * height);
                    assert!(mask.iter().all(|&v| v < 2));
                }
            }
        }
    }

    #[test]
    fn what_they_are() {
        for kind in [Kind::Solid, Kind::Comb, Kind::Spiral, Kind::Checkerboard, Kind::Dot] {
            assert_eq!(pieces(kind, 101, 77), 1, "{kind}");
        }
        assert_eq!(pieces(Kind::Blank, 101, 77), 0);
        assert_eq!(pieces(Kind::Stripes, 101, 77), 39);
        assert!(pieces(Kind::Text, 2048, 3072) > 2000);
        assert_eq!(pieces(Kind::Lines, 2048, 3072), 60_000);
        assert_eq!(pieces(Kind::FewLines, 8192, 768), 60_000);
        assert!(pieces(Kind::Diagonal, 100, 100) > 40);
        assert!(pieces(Kind::Antidiagonal, 100, 100) > 40);
        let ink = |kind: Kind| {
            kind.page(1000, 1000, &mut Random::new())
                .iter()
                .filter(|&&v| v == 1)
                .count()
        };
        for percent in [10, 30, 50, 70] {
            assert!(ink(Kind::Noise(percent)).abs_diff(usize::from(percent) * 10_000) < 3000);
        }
        assert!((20_000..200_000).contains(&ink(Kind::Text)));
        assert!((50_000..600_000).contains(&ink(Kind::Blobs)));
    }
}
