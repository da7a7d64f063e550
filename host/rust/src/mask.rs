//! An ink mask.
use crate::Refusal;

/// An ink mask: a byte a dot, row by row, 0 blank and 1 ink. What it holds is judged where it is levelled.
#[derive(Debug, Clone, PartialEq, Eq)]
pub struct Mask {
    width: u32,
    height: u32,
    dots: Vec<u8>,
}

impl Mask {
    /// A mask with these dots.
    #[must_use]
    pub fn new(width: u32, height: u32, dots: Vec<u8>) -> Self {
        Self { width, height, dots }
    }

    /// A mask drawn in lines of text, as wide as the widest: `#`, `1` and `X` are ink, all else is blank.
    ///
    /// # Errors
    /// [`Refusal::Sides`] where it has more lines or columns than can be counted.
    pub fn from_text(text: &str) -> Result<Self, Refusal> {
        let rows: Vec<Vec<u8>> = text.lines().map(|l| l.chars().map(|c| u8::from(matches!(c, '#' | '1' | 'X'))).collect()).collect();
        let widest = rows.iter().map(Vec::len).max().unwrap_or(0);
        let width = u32::try_from(widest).map_err(|_| Refusal::Sides)?;
        let height = u32::try_from(rows.len()).map_err(|_| Refusal::Sides)?;
        let dots = rows.into_iter().flat_map(|mut row| {
            row.resize(widest, 0);
            row
        });
        Ok(Self { width, height, dots: dots.collect() })
    }

    /// Its width.
    #[must_use]
    pub fn width(&self) -> u32 {
        self.width
    }

    /// Its height.
    #[must_use]
    pub fn height(&self) -> u32 {
        self.height
    }

    /// Its dots.
    #[must_use]
    pub fn dots(&self) -> &[u8] {
        &self.dots
    }
}
