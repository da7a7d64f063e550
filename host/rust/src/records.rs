//! What a leaf tells: its figures and lists, each record by name.

/// A box of frame dots, its corners inclusive.
#[derive(Debug, Clone, Copy, PartialEq, Eq, Hash)]
pub struct Rect {
    /// The first column.
    pub x0: u32,
    /// The first row.
    pub y0: u32,
    /// The last column.
    pub x1: u32,
    /// The last row.
    pub y1: u32,
}

impl Rect {
    /// How many columns it has; 0 where its ends are reversed.
    #[must_use]
    pub fn width(self) -> u32 {
        (self.x1.saturating_add(1)).saturating_sub(self.x0)
    }

    /// How many rows it has; 0 where its ends are reversed.
    #[must_use]
    pub fn height(self) -> u32 {
        (self.y1.saturating_add(1)).saturating_sub(self.y0)
    }

    pub(crate) fn of(words: &[u32]) -> Self {
        let word = |k: usize| words.get(k).copied().unwrap_or(0);
        Self { x0: word(0), y0: word(1), x1: word(2), y1: word(3) }
    }
}

/// A box on the page as it came, corners inclusive.
#[derive(Debug, Clone, Copy, PartialEq, Eq, Hash)]
pub struct PageRect {
    /// The first column.
    pub x0: i32,
    /// The first row.
    pub y0: i32,
    /// The last column.
    pub x1: i32,
    /// The last row.
    pub y1: i32,
}

/// A point on the page as it came; dots that levelling added lie outside the page.
#[derive(Debug, Clone, Copy, PartialEq, Eq, Hash)]
pub struct Point {
    /// Its column.
    pub x: i32,
    /// Its row.
    pub y: i32,
}

/// A dot of the page.
#[derive(Debug, Clone, Copy, PartialEq, Eq, Hash)]
pub struct Dot {
    /// Its column.
    pub x: u32,
    /// Its row.
    pub y: u32,
}

/// What a dot of ink is: every dot of ink has exactly one kind.
#[derive(Debug, Clone, Copy, PartialEq, Eq, Hash, PartialOrd, Ord)]
pub enum Kind {
    /// Cut out as part of a thin ruling.
    Cut = 1,
    /// Of a component that is a rule.
    Rule = 2,
    /// Of a graphic: a picture, an initial, a blot.
    Graphic = 3,
    /// Of a glyph: a letter or mark.
    Glyph = 4,
    /// Of a speck, too small for a glyph.
    Speck = 5,
}

impl Kind {
    /// All kinds, in their order.
    pub const ALL: [Self; 5] = [Self::Cut, Self::Rule, Self::Graphic, Self::Glyph, Self::Speck];

    /// Its number in a plane of kinds, where 0 is blank.
    #[must_use]
    pub fn number(self) -> u8 {
        self as u8
    }

    /// Its name.
    #[must_use]
    pub fn name(self) -> &'static str {
        match self {
            Self::Cut => "cut",
            Self::Rule => "rule",
            Self::Graphic => "graphic",
            Self::Glyph => "glyph",
            Self::Speck => "speck",
        }
    }
}

/// The x-height: the length that all others are measured by.
#[derive(Debug, Clone, Copy, PartialEq)]
pub enum Unit {
    /// The median height of the components that count for it.
    Measured(f64),
    /// The parameter `xheight_fallback_px`, where none counts.
    Assumed(f64),
}

impl Unit {
    /// Its value, in dots.
    #[must_use]
    pub fn value(self) -> f64 {
        match self {
            Self::Measured(v) | Self::Assumed(v) => v,
        }
    }
}

/// The page and the frame that it was levelled into.
#[derive(Debug, Clone, Copy, PartialEq)]
pub struct Frame {
    /// The page's width.
    pub page_width: u32,
    /// The page's height.
    pub page_height: u32,
    /// The frame's width.
    pub width: u32,
    /// The frame's height.
    pub height: u32,
    /// The skew that was applied, in degrees.
    pub skew: f64,
    /// Its slope.
    pub slope: f64,
}

/// The figures of a segmented leaf.
#[derive(Debug, Clone, Copy, PartialEq)]
pub struct Figures {
    /// The x-height.
    pub unit: Unit,
    /// How many rules.
    pub rules: u32,
    /// How many graphics.
    pub graphics: u32,
    /// How many glyphs.
    pub glyphs: u32,
    /// How many lines.
    pub lines: u32,
    /// How many blocks.
    pub blocks: u32,
    /// How many columns.
    pub columns: u32,
    /// The dots of ink: the sum of the five kinds.
    pub ink: u32,
    /// The dots of each kind, in the order of [`Kind::ALL`].
    pub dots: [u32; 5],
}

impl Figures {
    /// The dots of a kind.
    #[must_use]
    pub fn of(&self, kind: Kind) -> u32 {
        match kind {
            Kind::Cut => self.dots[0],
            Kind::Rule => self.dots[1],
            Kind::Graphic => self.dots[2],
            Kind::Glyph => self.dots[3],
            Kind::Speck => self.dots[4],
        }
    }
}

/// The twelve numbers of the original's summary.
#[derive(Debug, Clone, Copy, PartialEq)]
pub struct Summary {
    /// The x-height, in dots.
    pub xheight_px: f64,
    /// The skew that was applied, in degrees.
    pub skew_deg_applied: f64,
    /// How many glyphs.
    pub glyphs: f64,
    /// How many lines.
    pub lines: f64,
    /// How many blocks.
    pub blocks: f64,
    /// How many columns.
    pub columns: f64,
    /// How many rules.
    pub rules: f64,
    /// How many graphics.
    pub graphics: f64,
    /// Glyph dots over frame dots.
    pub glyph_ink_fraction: f64,
    /// Glyph dots over ink dots.
    pub text_share_of_ink: f64,
    /// The median pitch of lines, in x-heights.
    pub median_line_pitch_xh: f64,
    /// The median glyph height of lines, in x-heights.
    pub median_glyph_height_xh: f64,
}

/// A line of type.
#[derive(Debug, Clone, Copy, PartialEq, Eq, Hash)]
pub struct Line {
    /// Its box.
    pub bbox: Rect,
    /// How many glyphs stand in it.
    pub glyphs: u32,
    /// Their dots of ink.
    pub ink: u32,
    /// Their median height.
    pub glyph_height: u32,
    /// The number of its block.
    pub block: u32,
}

/// Lines that were set together.
#[derive(Debug, Clone, Copy, PartialEq, Eq, Hash)]
pub struct Block {
    /// Its box.
    pub bbox: Rect,
    /// How many lines it has.
    pub lines: u32,
}

/// A letter or mark.
#[derive(Debug, Clone, Copy, PartialEq, Eq, Hash)]
pub struct Glyph {
    /// Its box.
    pub bbox: Rect,
    /// Its dots.
    pub area: u32,
    /// The number of its line, if it stands in one.
    pub line: Option<u32>,
}

/// A column of type.
#[derive(Debug, Clone, Copy, PartialEq, Eq, Hash)]
pub struct Column {
    /// Its first frame column.
    pub first: u32,
    /// Its last frame column.
    pub last: u32,
}
