//! This project's functions: the C exports of `crates/stages`, in safe Rust. A slice crosses as a pointer and a length, a
//! bool as one byte, which is held to be 0 or 1.

use original::pixel::layout::LayoutParams;

/// A sheet as the exports take it: the record of `crates/params`, by value.
#[repr(C)]
pub struct Sheet {
    glyph_min_area: u32,
    glyph_max_extent_frac: f64,
    xheight_min_area: u32,
    xheight_fallback_px: f64,
    rule_min_len_xh: f64,
    rule_max_thick_xh: f64,
    rule_run_xh: f64,
    graphic_min_xh: f64,
    smear_xh: f64,
    line_min_glyphs: u32,
    line_min_height_xh: f64,
    line_max_height_xh: f64,
    block_min_overlap: f64,
    block_gap_margin_lines: f64,
    block_max_gap_lines: f64,
    column_gap_xh: f64,
    column_cover_frac: f64,
    shear_min_deg: f64,
}

impl Sheet {
    fn of(p: &LayoutParams) -> Sheet {
        Sheet {
            glyph_min_area: p.glyph_min_area,
            glyph_max_extent_frac: p.glyph_max_extent_frac,
            xheight_min_area: p.xheight_min_area,
            xheight_fallback_px: p.xheight_fallback_px,
            rule_min_len_xh: p.rule_min_len_xh,
            rule_max_thick_xh: p.rule_max_thick_xh,
            rule_run_xh: p.rule_run_xh,
            graphic_min_xh: p.graphic_min_xh,
            smear_xh: p.smear_xh,
            line_min_glyphs: p.line_min_glyphs,
            line_min_height_xh: p.line_min_height_xh,
            line_max_height_xh: p.line_max_height_xh,
            block_min_overlap: p.block_min_overlap,
            block_gap_margin_lines: p.block_gap_margin_lines,
            block_max_gap_lines: p.block_max_gap_lines,
            column_gap_xh: p.column_gap_xh,
            column_cover_frac: p.column_cover_frac,
            shear_min_deg: p.shear_min_deg,
        }
    }
}

mod c {
    extern "C" {
        pub fn novlizeb_round(x: f64) -> f64;
        pub fn novlizeb_round_to_u32(x: f64) -> u32;
        pub fn novlizeb_round_to_usize(x: f64) -> usize;
        pub fn novlizeb_round_to_i32(x: f64) -> i32;
        pub fn novlizeb_round_to_i64(x: f64) -> i64;
        pub fn novlizeb_round_output(x: f64) -> f64;
        pub fn novlizeb_pairwise_sum(values: *const f64, length: usize) -> f64;
        pub fn novlizeb_validate(sheet: super::Sheet) -> u8;
        pub fn novlizeb_label(
            mask: *const u8,
            mask_length: usize,
            width: u32,
            height: u32,
            capacity: u32,
            labels: *mut u32,
            labels_length: usize,
            components: *mut u32,
            components_length: usize,
            scratch: *mut u32,
            scratch_length: usize,
        ) -> u64;
        pub fn novlizeb_run_extents(
            mask: *const u8,
            mask_length: usize,
            width: u32,
            height: u32,
            columns: u8,
            extents: *mut u32,
            extents_length: usize,
        ) -> u64;
        pub fn novlizeb_applied(least: f64, skew: f64, value: f64) -> f64;
        pub fn novlizeb_plane_size(page_width: u32, page_height: u32, slope: f64) -> u64;
        pub fn novlizeb_level_plane(
            page: *const u8,
            page_length: usize,
            fill: u8,
            page_width: u32,
            page_height: u32,
            slope: f64,
            shears: *mut u32,
            shears_length: usize,
            out: *mut u8,
            out_length: usize,
        ) -> u8;
        pub fn novlizeb_to_page_x(shears: *const u32, shears_length: usize, page_width: u32, x: u32, y: u32) -> i64;
        pub fn novlizeb_to_page_y(shears: *const u32, shears_length: usize, page_width: u32, x: u32, y: u32) -> i64;
        pub fn novlizeb_rect_to_page_start(
            shears: *const u32,
            shears_length: usize,
            page_width: u32,
            page_height: u32,
            x0: u32,
            y0: u32,
            x1: u32,
            y1: u32,
        ) -> u64;
        pub fn novlizeb_rect_to_page_end(
            shears: *const u32,
            shears_length: usize,
            page_width: u32,
            page_height: u32,
            x0: u32,
            y0: u32,
            x1: u32,
            y1: u32,
        ) -> u64;
        pub fn novlizeb_thin_rulings(
            ink: *const u8,
            ink_length: usize,
            width: u32,
            height: u32,
            run_min: u32,
            thick_max: u32,
            words: *mut u32,
            words_length: usize,
            marks: u32,
        ) -> u8;
        pub fn novlizeb_cut_rulings(
            ink: *const u8,
            ink_length: usize,
            width: u32,
            height: u32,
            run_min: u32,
            thick_max: u32,
            capacity: u32,
            words: *mut u32,
            words_length: usize,
            counts: *mut u32,
            counts_length: usize,
        ) -> u32;
        pub fn novlizeb_segment_plane(
            ink: *const u8,
            ink_length: usize,
            width: u32,
            height: u32,
            sheet: super::Sheet,
            capacity: u32,
            words: *mut u32,
            words_length: usize,
            results: *mut u32,
            results_length: usize,
            kinds: *mut u8,
            kinds_length: usize,
            figures: *mut u32,
            figures_length: usize,
        ) -> u32;
        pub fn novlizeb_sort(
            ink: *const u8,
            ink_length: usize,
            width: u32,
            height: u32,
            sheet: super::Sheet,
            capacity: u32,
            words: *mut u32,
            words_length: usize,
            figures: *mut u32,
            figures_length: usize,
        ) -> u32;
        pub fn novlizeb_run_min(rule_run_xh: f64, unit: f64) -> u32;
        pub fn novlizeb_thick_max(rule_max_thick_xh: f64, unit: f64) -> u32;
        pub fn novlizeb_kind_by_size(
            glyph_min_area: u32,
            glyph_max_extent_frac: f64,
            rule_min_len_xh: f64,
            rule_max_thick_xh: f64,
            graphic_min_xh: f64,
            measured: u8,
            unit: f64,
            frame_width: u32,
            frame_height: u32,
            area: u32,
            width: u32,
            height: u32,
        ) -> u32;
    }
}

/// What an entry answers: document 01's number of its refusal, 0 where it has none, and its value.
#[derive(Clone, Copy, Debug, PartialEq)]
pub struct Answer {
    pub number: u32,
    pub value: u32,
}

impl Answer {
    pub fn of(word: u64) -> Self {
        Answer {
            number: (word >> 32) as u32,
            value: word as u32,
        }
    }
}

// The exports are total: whatever numbers they are handed, they return. So a call is safe wherever the pointers are.

pub fn round(x: f64) -> f64 {
    unsafe { c::novlizeb_round(x) }
}

pub fn round_to_u32(x: f64) -> u32 {
    unsafe { c::novlizeb_round_to_u32(x) }
}

pub fn round_to_usize(x: f64) -> usize {
    unsafe { c::novlizeb_round_to_usize(x) }
}

pub fn round_to_i32(x: f64) -> i32 {
    unsafe { c::novlizeb_round_to_i32(x) }
}

pub fn round_to_i64(x: f64) -> i64 {
    unsafe { c::novlizeb_round_to_i64(x) }
}

pub fn round_output(x: f64) -> f64 {
    unsafe { c::novlizeb_round_output(x) }
}

pub fn pairwise_sum(values: &[f64]) -> f64 {
    unsafe { c::novlizeb_pairwise_sum(values.as_ptr(), values.len()) }
}

pub fn validate(p: &LayoutParams) -> bool {
    flag(unsafe { c::novlizeb_validate(Sheet::of(p)) })
}

/// Labelling by itself. The value is the count of pieces.
pub fn label(
    mask: &[u8],
    width: u32,
    height: u32,
    capacity: u32,
    labels: &mut [u32],
    components: &mut [u32],
    scratch: &mut [u32],
) -> Answer {
    Answer::of(unsafe {
        c::novlizeb_label(
            mask.as_ptr(),
            mask.len(),
            width,
            height,
            capacity,
            labels.as_mut_ptr(),
            labels.len(),
            components.as_mut_ptr(),
            components.len(),
            scratch.as_mut_ptr(),
            scratch.len(),
        )
    })
}

/// Run extents by themselves, along the columns or along the rows. The value is 0.
pub fn run_extents(mask: &[u8], width: u32, height: u32, columns: bool, extents: &mut [u32]) -> Answer {
    Answer::of(unsafe {
        c::novlizeb_run_extents(
            mask.as_ptr(),
            mask.len(),
            width,
            height,
            u8::from(columns),
            extents.as_mut_ptr(),
            extents.len(),
        )
    })
}

/// The value where the skew is applied, else 0.
pub fn applied(least: f64, skew: f64, value: f64) -> f64 {
    unsafe { c::novlizeb_applied(least, skew, value) }
}

/// The frame's width and height; both 0 where the sides or the slope are outside their limits.
pub fn frame_size(page_width: u32, page_height: u32, slope: f64) -> (u32, u32) {
    let word = unsafe { c::novlizeb_plane_size(page_width, page_height, slope) };
    (word as u32, (word >> 32) as u32)
}

/// A page plane moved into its frame, both shears beside it; false where something is outside its limits or too short.
pub fn level_plane(
    page: &[u8],
    fill: u8,
    page_width: u32,
    page_height: u32,
    slope: f64,
    shears: &mut [u32],
    out: &mut [u8],
) -> bool {
    flag(unsafe {
        c::novlizeb_level_plane(
            page.as_ptr(),
            page.len(),
            fill,
            page_width,
            page_height,
            slope,
            shears.as_mut_ptr(),
            shears.len(),
            out.as_mut_ptr(),
            out.len(),
        )
    })
}

/// A frame point in page coordinates.
pub fn to_page(shears: &[u32], page_width: u32, x: u32, y: u32) -> (i64, i64) {
    let (from, length) = (shears.as_ptr(), shears.len());
    unsafe {
        (
            c::novlizeb_to_page_x(from, length, page_width, x, y),
            c::novlizeb_to_page_y(from, length, page_width, x, y),
        )
    }
}

/// The page box of a frame box, both as x0, y0, x1, y1.
pub fn rect_to_page(shears: &[u32], page_width: u32, page_height: u32, corners: [u32; 4]) -> [u32; 4] {
    let (from, length) = (shears.as_ptr(), shears.len());
    let [x0, y0, x1, y1] = corners;
    let (start, end) = unsafe {
        (
            c::novlizeb_rect_to_page_start(from, length, page_width, page_height, x0, y0, x1, y1),
            c::novlizeb_rect_to_page_end(from, length, page_width, page_height, x0, y0, x1, y1),
        )
    };
    [start as u32, (start >> 32) as u32, end as u32, (end >> 32) as u32]
}

/// The dots of thin rulings from word `marks` on: 1 in a horizontal one, 2 in a vertical one, 3 in both; false where something is
/// outside its limits or too short.
pub fn thin_rulings(
    ink: &[u8],
    width: u32,
    height: u32,
    run_min: u32,
    thick_max: u32,
    words: &mut [u32],
    marks: u32,
) -> bool {
    flag(unsafe {
        c::novlizeb_thin_rulings(
            ink.as_ptr(),
            ink.len(),
            width,
            height,
            run_min,
            thick_max,
            words.as_mut_ptr(),
            words.len(),
            marks,
        )
    })
}

/// Thin rulings cut and labelled: document 01's number of its refusal, 0 where it has none.
#[allow(clippy::too_many_arguments)]
pub fn cut_rulings(
    ink: &[u8],
    width: u32,
    height: u32,
    run_min: u32,
    thick_max: u32,
    capacity: u32,
    words: &mut [u32],
    counts: &mut [u32],
) -> u32 {
    unsafe {
        c::novlizeb_cut_rulings(
            ink.as_ptr(),
            ink.len(),
            width,
            height,
            run_min,
            thick_max,
            capacity,
            words.as_mut_ptr(),
            words.len(),
            counts.as_mut_ptr(),
            counts.len(),
        )
    }
}

/// What is lent to a whole segmentation.
pub struct Page<'a> {
    pub words: &'a mut [u32],
    pub results: &'a mut [u32],
    pub kinds: &'a mut [u8],
    pub figures: &'a mut [u32],
}

/// A whole segmentation of an ink plane: document 01's number of its refusal, 0 where it has none.
pub fn segment(ink: &[u8], width: u32, height: u32, p: &LayoutParams, capacity: u32, lent: &mut Page) -> u32 {
    unsafe {
        c::novlizeb_segment_plane(
            ink.as_ptr(),
            ink.len(),
            width,
            height,
            Sheet::of(p),
            capacity,
            lent.words.as_mut_ptr(),
            lent.words.len(),
            lent.results.as_mut_ptr(),
            lent.results.len(),
            lent.kinds.as_mut_ptr(),
            lent.kinds.len(),
            lent.figures.as_mut_ptr(),
            lent.figures.len(),
        )
    }
}

/// An ink plane sorted, as a segmentation sorts it: document 01's number of its refusal, 0 where it has none.
pub fn sort(
    ink: &[u8],
    width: u32,
    height: u32,
    p: &LayoutParams,
    capacity: u32,
    words: &mut [u32],
    figures: &mut [u32],
) -> u32 {
    unsafe {
        c::novlizeb_sort(
            ink.as_ptr(),
            ink.len(),
            width,
            height,
            Sheet::of(p),
            capacity,
            words.as_mut_ptr(),
            words.len(),
            figures.as_mut_ptr(),
            figures.len(),
        )
    }
}

/// The least run and the greatest thickness of a thin ruling.
pub fn limits(p: &LayoutParams, unit: f64) -> (u32, u32) {
    unsafe {
        (
            c::novlizeb_run_min(p.rule_run_xh, unit),
            c::novlizeb_thick_max(p.rule_max_thick_xh, unit),
        )
    }
}

/// The kind of a component of this area, width and height, in a frame of these sides.
pub fn kind_by_size(p: &LayoutParams, measured: bool, unit: f64, frame: (u32, u32), size: [u32; 3]) -> u32 {
    unsafe {
        c::novlizeb_kind_by_size(
            p.glyph_min_area,
            p.glyph_max_extent_frac,
            p.rule_min_len_xh,
            p.rule_max_thick_xh,
            p.graphic_min_xh,
            u8::from(measured),
            unit,
            frame.0,
            frame.1,
            size[0],
            size[1],
            size[2],
        )
    }
}

/// A bool of C.
fn flag(byte: u8) -> bool {
    assert!(byte < 2, "a bool of {byte}");
    byte == 1
}
