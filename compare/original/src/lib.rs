//! The original Rust, built from its own files (see `build.rs`), and stand-ins for what they lean on.
//!
//! Document 01 says which: the mask comes in where the original makes it from gray (`sauvola`), and the slope comes in
//! where it takes the sine over the cosine of the applied skew (`libm`). [`segment_mask`] is the reference of the whole.

include!(concat!(env!("OUT_DIR"), "/root.rs"));

pub mod error {
    #[derive(Debug)]
    pub enum Error {
        NonFinite(String),
        InvalidParams(String),
        InvalidInput(String),
    }

    pub type Result<T> = std::result::Result<T, Error>;
}

pub mod params {
    pub struct SauvolaParams;

    pub struct Params {
        pub layout: crate::pixel::layout::LayoutParams,
        pub sauvola: SauvolaParams,
    }
}

pub mod pixel {
    use std::collections::BTreeMap;

    #[derive(Debug, Default)]
    pub struct Detection {
        pub findings: Vec<()>,
        pub features: BTreeMap<String, f64>,
    }

    pub mod binarize {
        pub mod local {
            use std::cell::RefCell;

            use crate::params::SauvolaParams;

            thread_local! {
                static HANDED: RefCell<Option<Vec<u8>>> = const { RefCell::new(None) };
            }

            /// The next call of [`sauvola`] answers this mask, so that no copy is made in its time.
            pub fn hand(mask: Vec<u8>) {
                HANDED.with(|handed| *handed.borrow_mut() = Some(mask));
            }

            /// The stand-in: the mask that was handed in, or else the gray buffer itself.
            pub fn sauvola(gray: &[u8], _: usize, _: usize, _: &SauvolaParams) -> Vec<u8> {
                HANDED.with(|handed| handed.borrow_mut().take()).unwrap_or_else(|| gray.to_vec())
            }
        }
    }

    include!(concat!(env!("OUT_DIR"), "/pixel.rs"));
}

/// `segment` with this mask and this slope. The slope is 0 where the skew is not applied, as document 01 has it.
pub fn segment_mask(
    mask: &[u8],
    width: usize,
    height: usize,
    skew_deg: f64,
    slope: f64,
    sheet: &pixel::layout::LayoutParams,
) -> error::Result<pixel::layout::Layout> {
    let applied = skew_deg.abs() >= sheet.shear_min_deg;
    libm::set_slope(if applied { slope } else { 0.0 });
    let params = params::Params {
        layout: sheet.clone(),
        sauvola: params::SauvolaParams,
    };
    pixel::layout::segment(mask, width, height, skew_deg, &params)
}

/// The same, where `copy` is a copy of the mask for the original to take over.
pub fn segment_copy(
    mask: &[u8],
    copy: Vec<u8>,
    width: usize,
    height: usize,
    skew_deg: f64,
    slope: f64,
    sheet: &pixel::layout::LayoutParams,
) -> error::Result<pixel::layout::Layout> {
    pixel::binarize::local::hand(copy);
    segment_mask(mask, width, height, skew_deg, slope, sheet)
}

/// `segment`'s own levelling of this mask under this slope, the ink uncut. Of the rest nothing is there but what the methods of
/// [`pixel::layout::Layout`] need to map back: sides and shears.
pub fn level_mask(
    mask: Vec<u8>,
    width: usize,
    height: usize,
    skew_deg: f64,
    slope: f64,
    sheet: &pixel::layout::LayoutParams,
) -> pixel::layout::Layout {
    let applied = skew_deg.abs() >= sheet.shear_min_deg;
    libm::set_slope(if applied { slope } else { 0.0 });
    pixel::layout::compare_level(mask, width, height, skew_deg, sheet)
}

#[cfg(test)]
mod tests {
    use super::*;

    fn show_sheet() -> pixel::layout::LayoutParams {
        pixel::layout::LayoutParams {
            glyph_min_area: 1,
            glyph_max_extent_frac: 1.0,
            xheight_min_area: 1,
            xheight_fallback_px: 1.0,
            rule_min_len_xh: 4.0,
            rule_max_thick_xh: 0.5,
            rule_run_xh: 4.0,
            graphic_min_xh: 8.0,
            smear_xh: 1.0,
            line_min_glyphs: 1,
            line_min_height_xh: 0.5,
            line_max_height_xh: 3.0,
            block_min_overlap: 0.5,
            block_gap_margin_lines: 0.5,
            block_max_gap_lines: 3.0,
            column_gap_xh: 1.0,
            column_cover_frac: 0.0,
            shear_min_deg: 0.0,
        }
    }

    /// Document 01's page of the show program: the stand-ins give the original what it is to get.
    #[test]
    fn the_page_of_document_01() {
        let mut mask = [0u8; 24];
        for dot in [7, 9, 13, 15] {
            mask[dot] = 1;
        }
        let page = segment_mask(&mask, 6, 4, 0.0, 0.0, &show_sheet()).expect("accepted");
        assert_eq!((page.width, page.height, page.xheight), (6, 4, 2.0));
        assert_eq!((page.lines.len(), page.blocks.len(), page.glyphs.len()), (1, 1, 2));
        assert_eq!(page.columns, [(1, 3)]);
    }

    /// Document 01's width 4, height 2, slope 0.5.
    #[test]
    fn the_shears_of_document_01() {
        let page = segment_mask(&[1; 8], 4, 2, 20.0, 0.5, &show_sheet()).expect("accepted");
        assert_eq!((page.shear, page.shear_x), (vec![0, 1, 1, 2], vec![2, 1, 1, 0]));
        assert_eq!((page.width, page.height), (6, 4));
    }
}
