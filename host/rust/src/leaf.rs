//! A leaf: the memory that the library is lent, and what it tells.
use crate::native::{self, Held, Page};
use crate::{Block, Column, Dot, Figures, Frame, Glyph, Kind, LayoutParams, Line, Mask, PageRect, Point, Rect, Refusal, Summary, Unit};

const MARK: u32 = 0xFFF;

/// The slope of a skew in degrees: its sine over its cosine, as the original computes it.
#[must_use]
pub fn slope_of(skew: f64) -> f64 {
    let radians = skew * std::f64::consts::PI / 180.0;
    libm::sin(radians) / libm::cos(radians)
}

/// A leaf and all memory that measuring it takes: empty, levelled, or segmented.
#[derive(Debug, Clone, Default)]
pub struct Leaf {
    store: Vec<u32>,
    ink: Vec<u8>,
    kinds: Vec<u8>,
    scratch: Vec<u32>,
    shape: Shape,
}

/// The sides of a leaf's page and frame, and its capacity.
#[derive(Debug, Clone, Copy, Default, PartialEq, Eq)]
pub struct Shape {
    /// The page's width.
    pub page_width: u32,
    /// The page's height.
    pub page_height: u32,
    /// The frame's width.
    pub width: u32,
    /// The frame's height.
    pub height: u32,
    /// How many components each labelling may have.
    pub capacity: u32,
}

impl Shape {
    fn dots(self) -> usize {
        self.width as usize * self.height as usize
    }

    fn store_words(self) -> usize {
        64 + self.page_width as usize + self.height as usize + 2 * self.width as usize + 40 * self.capacity as usize
    }

    fn scratch_words(self) -> usize {
        4 * self.dots() + 16 * self.capacity as usize + 64
    }
}

fn done(number: u32) -> Result<(), Refusal> {
    Refusal::from_number(number).map_or(Ok(()), Err)
}

fn value(answer: u64) -> Result<u32, Refusal> {
    done((answer >> 32) as u32).map(|()| answer as u32)
}

fn float(low: u32, high: u32) -> f64 {
    f64::from_bits(u64::from(high) << 32 | u64::from(low))
}

/// Zeros to lend. That there is room is tried first, since a vector of zeros, which the system makes without writing them, would end the process where there is none.
fn zeros<T: Copy + Default>(length: usize) -> Result<Vec<T>, Refusal> {
    Vec::<T>::new().try_reserve_exact(length).map_err(|_| Refusal::TooShort)?;
    let mut memory = vec![T::default(); length];
    native::in_large_pages(&mut memory);
    Ok(memory)
}

impl Leaf {
    /// An empty leaf.
    #[must_use]
    pub fn new() -> Self {
        Self::default()
    }

    /// Levels a mask: text lines that rise by `skew` degrees become level. `capacity` is how many components each labelling of the leaf may have, at most
    /// [`MAX_CAPACITY`](crate::MAX_CAPACITY).
    ///
    /// # Errors
    /// [`Refusal::NotEmpty`] unless the leaf is empty; else what is wrong with the arguments, the lowest number. The leaf is then as it was.
    pub fn level(&mut self, mask: &Mask, skew: f64, params: &LayoutParams, capacity: u32) -> Result<(), Refusal> {
        self.level_by(mask, skew, slope_of(skew), params, capacity)
    }

    /// The same with a slope of the caller's own.
    ///
    /// # Errors
    /// As [`Leaf::level`].
    pub fn level_by(&mut self, mask: &Mask, skew: f64, slope: f64, params: &LayoutParams, capacity: u32) -> Result<(), Refusal> {
        let page = Page { mask: mask.dots(), width: mask.width(), height: mask.height(), skew, slope, capacity };
        if self.store.first().copied().unwrap_or(0) != 0 {
            return done(native::level(page, params, &mut self.store, &mut self.ink));
        }
        let applied = if skew.abs() >= params.shear_min_deg { slope } else { 0.0 };
        let size = native::frame_size(page.width, page.height, applied);
        let shape = Shape { page_width: page.width, page_height: page.height, width: size as u32, height: (size >> 32) as u32, capacity: capacity.min(crate::MAX_CAPACITY) };
        if size == 0 {
            return done(native::level(page, params, &mut [0; 64], &mut []));
        }
        let (mut store, mut ink, kinds) = (zeros(shape.store_words())?, zeros(shape.dots())?, zeros(shape.dots())?);
        done(native::level(page, params, &mut store, &mut ink))?;
        *self = Self { store, ink, kinds, scratch: std::mem::take(&mut self.scratch), shape };
        Ok(())
    }

    /// Finds kinds, glyphs, lines, blocks and columns. A leaf may be segmented again with other parameters.
    ///
    /// # Errors
    /// [`Refusal::Empty`], [`Refusal::Params`], [`Refusal::Components`] or [`Refusal::Lines`]; the leaf is then as it was.
    pub fn segment(&mut self, params: &LayoutParams) -> Result<(), Refusal> {
        let words = if self.store.first().copied().unwrap_or(0) == 0 { 0 } else { self.shape.scratch_words() };
        if self.scratch.len() < words {
            self.scratch = Vec::new();
            self.scratch = zeros(words)?;
        }
        done(native::segment(params, &mut self.store, &self.ink, &mut self.kinds, &mut self.scratch)).map_err(|refusal| match refusal {
            Refusal::TooShort if self.store.is_empty() => Refusal::Empty,
            other => other,
        })
    }

    /// Makes the leaf empty. The planes and the shape stay to be looked at until the next levelling.
    pub fn clear(&mut self) {
        native::clear(&mut self.store);
    }

    /// The leaf's sides; zeros before it is levelled.
    #[must_use]
    pub fn shape(&self) -> Shape {
        self.shape
    }

    /// The ink plane: a byte a frame dot, 0 blank and 1 ink.
    #[must_use]
    pub fn ink(&self) -> &[u8] {
        &self.ink
    }

    /// The plane of kinds: a byte a frame dot, 0 blank, else the number of its [`Kind`].
    #[must_use]
    pub fn kinds(&self) -> &[u8] {
        &self.kinds
    }

    fn held(&self) -> Held<'_> {
        Held { store: &self.store, ink: &self.ink, kinds: &self.kinds }
    }

    /// A leaf that was never levelled owns no store, which the library would call too short.
    fn levelled(&self) -> Result<(), Refusal> {
        if self.store.is_empty() { Err(Refusal::Empty) } else { Ok(()) }
    }

    fn segmented(&self) -> Result<(), Refusal> {
        if self.store.is_empty() { Err(Refusal::NotSegmented) } else { Ok(()) }
    }

    /// The page and the frame that it was levelled into.
    ///
    /// # Errors
    /// [`Refusal::Empty`].
    pub fn frame(&self) -> Result<Frame, Refusal> {
        self.levelled()?;
        let mut w = [0; 8];
        done(native::read_frame(&self.store, &mut w))?;
        Ok(Frame { page_width: w[0], page_height: w[1], width: w[2], height: w[3], skew: float(w[4], w[5]), slope: float(w[6], w[7]) })
    }

    /// Where a frame point lies on the page.
    ///
    /// # Errors
    /// [`Refusal::Empty`], or [`Refusal::Outside`] where the point is not in the frame.
    pub fn to_page(&self, x: u32, y: u32) -> Result<Point, Refusal> {
        self.levelled()?;
        let mut p = [0; 2];
        done(native::to_page(&self.store, x, y, &mut p))?;
        Ok(Point { x: p[0], y: p[1] })
    }

    /// The least page box around a frame box, cut to the page.
    ///
    /// # Errors
    /// As [`Leaf::to_page`].
    pub fn rect_to_page(&self, rect: Rect) -> Result<PageRect, Refusal> {
        self.levelled()?;
        let mut r = [0; 4];
        done(native::rect_to_page(&self.store, [rect.x0, rect.y0, rect.x1, rect.y1], &mut r))?;
        Ok(PageRect { x0: r[0], y0: r[1], x1: r[2], y1: r[3] })
    }

    /// A gray plane of page size, levelled as the mask was; added dots are 255.
    ///
    /// # Errors
    /// [`Refusal::Empty`], or [`Refusal::TooShort`] where it is not of page size.
    pub fn level_gray(&self, gray: &[u8]) -> Result<Vec<u8>, Refusal> {
        self.levelled()?;
        let mut out = zeros(self.shape.dots())?;
        done(native::level_gray(&self.store, gray, &mut out))?;
        Ok(out)
    }

    /// The figures.
    ///
    /// # Errors
    /// [`Refusal::NotSegmented`], as all readings below.
    pub fn figures(&self) -> Result<Figures, Refusal> {
        self.segmented()?;
        let mut w = [0; 15];
        done(native::read_figures(self.held(), &mut w))?;
        let x = float(w[1], w[2]);
        Ok(Figures {
            unit: if w[0] == 0 { Unit::Assumed(x) } else { Unit::Measured(x) },
            rules: w[3],
            graphics: w[4],
            glyphs: w[5],
            lines: w[6],
            blocks: w[7],
            columns: w[8],
            ink: w[9],
            dots: [w[10], w[11], w[12], w[13], w[14]],
        })
    }

    /// The twelve numbers of the summary.
    ///
    /// # Errors
    /// [`Refusal::NotSegmented`].
    pub fn summary(&self) -> Result<Summary, Refusal> {
        self.segmented()?;
        let mut w = [0.0; 12];
        done(native::read_summary(self.held(), &mut w))?;
        Ok(Summary {
            xheight_px: w[0],
            skew_deg_applied: w[1],
            glyphs: w[2],
            lines: w[3],
            blocks: w[4],
            columns: w[5],
            rules: w[6],
            graphics: w[7],
            glyph_ink_fraction: w[8],
            text_share_of_ink: w[9],
            median_line_pitch_xh: w[10],
            median_glyph_height_xh: w[11],
        })
    }

    /// Reads a list of `count` records of `width` words.
    fn list<T>(&self, read: impl Fn(Held<'_>, &mut [u32]) -> u64, count: u32, width: usize, record: impl Fn(&[u32]) -> T) -> Result<Vec<T>, Refusal> {
        let mut words = zeros(count as usize * width)?;
        value(read(self.held(), &mut words))?;
        Ok(words.chunks_exact(width).map(record).collect())
    }

    /// The lines, in their order.
    ///
    /// # Errors
    /// [`Refusal::NotSegmented`].
    pub fn lines(&self) -> Result<Vec<Line>, Refusal> {
        let n = self.figures()?.lines;
        self.list(native::read_lines, n, 8, |w| Line { bbox: Rect::of(w), glyphs: w[4], ink: w[5], glyph_height: w[6], block: w[7] })
    }

    /// The blocks, by first line.
    ///
    /// # Errors
    /// [`Refusal::NotSegmented`].
    pub fn blocks(&self) -> Result<Vec<Block>, Refusal> {
        let n = self.figures()?.blocks;
        self.list(native::read_blocks, n, 5, |w| Block { bbox: Rect::of(w), lines: w[4] })
    }

    /// The rules: horizontal cuts, vertical cuts, then components that are rules.
    ///
    /// # Errors
    /// [`Refusal::NotSegmented`].
    pub fn rules(&self) -> Result<Vec<Rect>, Refusal> {
        let n = self.figures()?.rules;
        self.list(native::read_rules, n, 4, Rect::of)
    }

    /// The graphics.
    ///
    /// # Errors
    /// [`Refusal::NotSegmented`].
    pub fn graphics(&self) -> Result<Vec<Rect>, Refusal> {
        let n = self.figures()?.graphics;
        self.list(native::read_graphics, n, 4, Rect::of)
    }

    /// The glyphs, by first dot.
    ///
    /// # Errors
    /// [`Refusal::NotSegmented`].
    pub fn glyphs(&self) -> Result<Vec<Glyph>, Refusal> {
        let n = self.figures()?.glyphs;
        self.list(native::read_glyphs, n, 6, |w| Glyph { bbox: Rect::of(w), area: w[4], line: (w[5] != MARK).then_some(w[5]) })
    }

    /// The columns, from the left.
    ///
    /// # Errors
    /// [`Refusal::NotSegmented`].
    pub fn columns(&self) -> Result<Vec<Column>, Refusal> {
        let n = self.figures()?.columns;
        self.list(native::read_columns, n, 2, |w| Column { first: w[0], last: w[1] })
    }

    /// The measure of twenty lines: ten times the median of differences of y0 + y1 between following lines of a block.
    ///
    /// # Errors
    /// [`Refusal::NotSegmented`].
    pub fn twenty_line_measure(&self) -> Result<u32, Refusal> {
        self.segmented()?;
        value(native::twenty_line_measure(self.held()))
    }

    /// How many page dots of a kind lie in a frame box.
    ///
    /// # Errors
    /// [`Refusal::NotSegmented`], or [`Refusal::Outside`] where the box is not in the frame.
    pub fn count_dots(&self, kind: Kind, rect: Rect) -> Result<u32, Refusal> {
        self.segmented()?;
        value(native::count_dots(self.held(), u32::from(kind.number()), [rect.x0, rect.y0, rect.x1, rect.y1]))
    }

    /// These dots, by page row and then page column.
    ///
    /// # Errors
    /// As [`Leaf::count_dots`].
    pub fn dots(&self, kind: Kind, rect: Rect) -> Result<Vec<Dot>, Refusal> {
        let n = self.count_dots(kind, rect)?;
        self.list(|held, out| native::read_dots(held, u32::from(kind.number()), [rect.x0, rect.y0, rect.x1, rect.y1], out), n, 2, |w| Dot { x: w[0], y: w[1] })
    }

    /// The printed sheet.
    ///
    /// # Errors
    /// [`Refusal::NotSegmented`].
    pub fn sheet(&self) -> Result<String, Refusal> {
        let f = self.figures()?;
        let entry = |n: u32, bytes: usize| n as usize * bytes;
        let length = 37 + entry(f.lines, 42) + entry(f.blocks, 22) + entry(f.rules, 19) + entry(f.graphics, 19) + entry(f.glyphs, 30) + entry(f.columns, 11) + 51;
        let mut bytes = zeros(length)?;
        let n = value(native::write_sheet(self.held(), &mut bytes))?;
        bytes.truncate(n as usize);
        Ok(bytes.into_iter().map(char::from).collect())
    }
}
