//! Printed leaves measured: a safe crate over the proved library `libnovlizeb.a`.
//!
//! A leaf's ink mask is levelled, thin rulings are cut, and glyphs, lines, blocks and columns are found. A dot of ink may be moved and sorted, never added or dropped, and
//! each is told which kind it fell in: the library is proved to do so, for every leaf within its limits. This crate owns the memory that the library is lent, and gives its
//! lists as records.
//!
//! ```
//! use novlizeb::{Kind, LayoutParams, Leaf, Mask};
//!
//! // four rows: two strokes, two dots high, in the second and third
//! let mask = Mask::from_text("......\n.#.#..\n.#.#..\n......")?;
//! let params = LayoutParams { glyph_min_area: 1, glyph_max_extent_frac: 1.0, xheight_min_area: 1, line_min_glyphs: 1, ..LayoutParams::default() };
//! let mut leaf = Leaf::new();
//! leaf.level(&mask, 0.0, &params, 64)?;
//! leaf.segment(&params)?;
//!
//! let figures = leaf.figures()?;
//! assert_eq!(figures.ink, figures.of(Kind::Cut) + figures.of(Kind::Rule) + figures.of(Kind::Graphic) + figures.of(Kind::Glyph) + figures.of(Kind::Speck));
//! assert_eq!(leaf.glyphs()?.len(), 2);
//! assert_eq!(leaf.glyphs()?[0].area, 2);
//! # Ok::<(), novlizeb::Refusal>(())
//! ```
//!
//! Nothing here panics: a call that cannot be done gives a [`Refusal`], and the leaf is then as it was.
#![deny(unsafe_op_in_unsafe_fn)]
#![warn(missing_docs)]

mod leaf;
mod mask;
mod native;
mod params;
mod records;
mod refusal;

pub use leaf::{slope_of, Leaf, Shape};
pub use mask::Mask;
pub use params::LayoutParams;
pub use records::{Block, Column, Dot, Figures, Frame, Glyph, Kind, Line, PageRect, Point, Rect, Summary, Unit};
pub use refusal::Refusal;

/// The longest side of a page.
pub const MAX_PAGE_SIDE: u32 = 8192;

/// The greatest capacity: how many components each labelling may have.
pub const MAX_CAPACITY: u32 = 65535;
