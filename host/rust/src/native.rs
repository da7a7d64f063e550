//! The library's C names, and a safe function for each. This is the only module with unsafe code.
//!
//! Each call of the library below is safe for one reason: every pointer comes from a slice reference with that slice's length, so it is aligned and valid for as many elements, for reading,
//! and, where it is mutable, for writing by nobody else meanwhile; the library is proved to touch nothing else and to end on every input. Integers and floats may hold any value.
use crate::LayoutParams;

mod raw {
    macro_rules! names {
        ($($name:ident($($argument:ident: $type:ty),*) -> $answer:ty;)*) => {
            extern "C" {
                $(pub fn $name($($argument: $type),*) -> $answer;)*
            }
        };
    }

    names! {
        novlizeb_level(mask: *const u8, mask_length: usize, width: u32, height: u32, skew: f64, slope: f64,
            glyph_min_area: u32, glyph_max_extent_frac: f64, xheight_min_area: u32, xheight_fallback_px: f64, rule_min_len_xh: f64, rule_max_thick_xh: f64, rule_run_xh: f64,
            graphic_min_xh: f64, smear_xh: f64, line_min_glyphs: u32, line_min_height_xh: f64, line_max_height_xh: f64, block_min_overlap: f64, block_gap_margin_lines: f64,
            block_max_gap_lines: f64, column_gap_xh: f64, column_cover_frac: f64, shear_min_deg: f64,
            capacity: u32, store: *mut u32, store_length: usize, ink: *mut u8, ink_length: usize) -> u32;
        novlizeb_segment(glyph_min_area: u32, glyph_max_extent_frac: f64, xheight_min_area: u32, xheight_fallback_px: f64, rule_min_len_xh: f64, rule_max_thick_xh: f64,
            rule_run_xh: f64, graphic_min_xh: f64, smear_xh: f64, line_min_glyphs: u32, line_min_height_xh: f64, line_max_height_xh: f64, block_min_overlap: f64,
            block_gap_margin_lines: f64, block_max_gap_lines: f64, column_gap_xh: f64, column_cover_frac: f64, shear_min_deg: f64,
            store: *mut u32, store_length: usize, ink: *const u8, ink_length: usize, kinds: *mut u8, kinds_length: usize, scratch: *mut u32, scratch_length: usize) -> u32;
        novlizeb_clear(store: *mut u32, store_length: usize) -> u32;
        novlizeb_to_page(store: *const u32, store_length: usize, x: u32, y: u32, point: *mut i32, point_length: usize) -> u32;
        novlizeb_rect_to_page(store: *const u32, store_length: usize, x0: u32, y0: u32, x1: u32, y1: u32, rect: *mut i32, rect_length: usize) -> u32;
        novlizeb_level_gray(store: *const u32, store_length: usize, gray: *const u8, gray_length: usize, out: *mut u8, out_length: usize) -> u32;
        novlizeb_read_frame(store: *const u32, store_length: usize, out: *mut u32, out_length: usize) -> u32;
        novlizeb_read_figures(store: *const u32, store_length: usize, ink: *const u8, ink_length: usize, kinds: *const u8, kinds_length: usize, out: *mut u32, out_length: usize) -> u32;
        novlizeb_read_summary(store: *const u32, store_length: usize, ink: *const u8, ink_length: usize, kinds: *const u8, kinds_length: usize, out: *mut f64, out_length: usize) -> u32;
        novlizeb_read_lines(store: *const u32, store_length: usize, ink: *const u8, ink_length: usize, kinds: *const u8, kinds_length: usize, out: *mut u32, out_length: usize) -> u64;
        novlizeb_read_blocks(store: *const u32, store_length: usize, ink: *const u8, ink_length: usize, kinds: *const u8, kinds_length: usize, out: *mut u32, out_length: usize) -> u64;
        novlizeb_read_rules(store: *const u32, store_length: usize, ink: *const u8, ink_length: usize, kinds: *const u8, kinds_length: usize, out: *mut u32, out_length: usize) -> u64;
        novlizeb_read_graphics(store: *const u32, store_length: usize, ink: *const u8, ink_length: usize, kinds: *const u8, kinds_length: usize, out: *mut u32, out_length: usize) -> u64;
        novlizeb_read_glyphs(store: *const u32, store_length: usize, ink: *const u8, ink_length: usize, kinds: *const u8, kinds_length: usize, out: *mut u32, out_length: usize) -> u64;
        novlizeb_read_columns(store: *const u32, store_length: usize, ink: *const u8, ink_length: usize, kinds: *const u8, kinds_length: usize, out: *mut u32, out_length: usize) -> u64;
        novlizeb_twenty_line_measure(store: *const u32, store_length: usize, ink: *const u8, ink_length: usize, kinds: *const u8, kinds_length: usize) -> u64;
        novlizeb_count_dots(store: *const u32, store_length: usize, ink: *const u8, ink_length: usize, kinds: *const u8, kinds_length: usize,
            kind: u32, x0: u32, y0: u32, x1: u32, y1: u32) -> u64;
        novlizeb_read_dots(store: *const u32, store_length: usize, ink: *const u8, ink_length: usize, kinds: *const u8, kinds_length: usize,
            kind: u32, x0: u32, y0: u32, x1: u32, y1: u32, out: *mut u32, out_length: usize) -> u64;
        novlizeb_write_sheet(store: *const u32, store_length: usize, ink: *const u8, ink_length: usize, kinds: *const u8, kinds_length: usize, out: *mut u8, out_length: usize) -> u64;
        novlizeb_frame_size(width: u32, height: u32, slope: f64) -> u64;
    }
}

/// Asks the system to lay memory that was not touched yet in large pages, which spares it most of the work of handing pages out one by one: only a hint, and only where Linux takes it.
pub fn in_large_pages<T>(memory: &mut [T]) {
    #[cfg(target_os = "linux")]
    {
        const PAGE: usize = 4096;
        const MADV_HUGEPAGE: i32 = 14;
        extern "C" {
            fn madvise(start: *mut std::ffi::c_void, length: usize, advice: i32) -> i32;
        }
        let start = memory.as_mut_ptr().cast::<u8>();
        let before = start.align_offset(PAGE);
        let length = std::mem::size_of_val(memory).saturating_sub(before) / PAGE * PAGE;
        if length > 0 {
            // SAFETY: whole pages inside the slice, and this advice leaves what memory holds as it is.
            unsafe { madvise(start.add(before).cast(), length, MADV_HUGEPAGE) };
        }
    }
}

/// What readings of results read.
#[derive(Clone, Copy)]
pub struct Held<'a> {
    pub store: &'a [u32],
    pub ink: &'a [u8],
    pub kinds: &'a [u8],
}

/// A page to be levelled.
#[derive(Clone, Copy)]
pub struct Page<'a> {
    pub mask: &'a [u8],
    pub width: u32,
    pub height: u32,
    pub skew: f64,
    pub slope: f64,
    pub capacity: u32,
}

pub fn level(page: Page<'_>, p: &LayoutParams, store: &mut [u32], ink: &mut [u8]) -> u32 {
    // SAFETY: slices with their own lengths (see the module).
    unsafe {
        raw::novlizeb_level(
            page.mask.as_ptr(), page.mask.len(), page.width, page.height, page.skew, page.slope,
            p.glyph_min_area, p.glyph_max_extent_frac, p.xheight_min_area, p.xheight_fallback_px, p.rule_min_len_xh, p.rule_max_thick_xh, p.rule_run_xh,
            p.graphic_min_xh, p.smear_xh, p.line_min_glyphs, p.line_min_height_xh, p.line_max_height_xh, p.block_min_overlap, p.block_gap_margin_lines,
            p.block_max_gap_lines, p.column_gap_xh, p.column_cover_frac, p.shear_min_deg,
            page.capacity, store.as_mut_ptr(), store.len(), ink.as_mut_ptr(), ink.len(),
        )
    }
}

pub fn segment(p: &LayoutParams, store: &mut [u32], ink: &[u8], kinds: &mut [u8], scratch: &mut [u32]) -> u32 {
    // SAFETY: slices with their own lengths (see the module).
    unsafe {
        raw::novlizeb_segment(
            p.glyph_min_area, p.glyph_max_extent_frac, p.xheight_min_area, p.xheight_fallback_px, p.rule_min_len_xh, p.rule_max_thick_xh, p.rule_run_xh,
            p.graphic_min_xh, p.smear_xh, p.line_min_glyphs, p.line_min_height_xh, p.line_max_height_xh, p.block_min_overlap, p.block_gap_margin_lines,
            p.block_max_gap_lines, p.column_gap_xh, p.column_cover_frac, p.shear_min_deg,
            store.as_mut_ptr(), store.len(), ink.as_ptr(), ink.len(), kinds.as_mut_ptr(), kinds.len(), scratch.as_mut_ptr(), scratch.len(),
        )
    }
}

pub fn clear(store: &mut [u32]) -> u32 {
    // SAFETY: a slice with its own length (see the module).
    unsafe { raw::novlizeb_clear(store.as_mut_ptr(), store.len()) }
}

pub fn frame_size(width: u32, height: u32, slope: f64) -> u64 {
    // SAFETY: no pointers; any values (see the module).
    unsafe { raw::novlizeb_frame_size(width, height, slope) }
}

pub fn to_page(store: &[u32], x: u32, y: u32, point: &mut [i32; 2]) -> u32 {
    // SAFETY: slices with their own lengths (see the module).
    unsafe { raw::novlizeb_to_page(store.as_ptr(), store.len(), x, y, point.as_mut_ptr(), point.len()) }
}

pub fn rect_to_page(store: &[u32], b: [u32; 4], rect: &mut [i32; 4]) -> u32 {
    // SAFETY: slices with their own lengths (see the module).
    unsafe { raw::novlizeb_rect_to_page(store.as_ptr(), store.len(), b[0], b[1], b[2], b[3], rect.as_mut_ptr(), rect.len()) }
}

pub fn level_gray(store: &[u32], gray: &[u8], out: &mut [u8]) -> u32 {
    // SAFETY: slices with their own lengths (see the module).
    unsafe { raw::novlizeb_level_gray(store.as_ptr(), store.len(), gray.as_ptr(), gray.len(), out.as_mut_ptr(), out.len()) }
}

pub fn read_frame(store: &[u32], out: &mut [u32; 8]) -> u32 {
    // SAFETY: slices with their own lengths (see the module).
    unsafe { raw::novlizeb_read_frame(store.as_ptr(), store.len(), out.as_mut_ptr(), out.len()) }
}

macro_rules! readings {
    ($($name:ident = $raw:ident: $element:ty => $answer:ty;)*) => {$(
        pub fn $name(h: Held<'_>, out: &mut [$element]) -> $answer {
            // SAFETY: slices with their own lengths (see the module).
            unsafe { raw::$raw(h.store.as_ptr(), h.store.len(), h.ink.as_ptr(), h.ink.len(), h.kinds.as_ptr(), h.kinds.len(), out.as_mut_ptr(), out.len()) }
        }
    )*};
}

readings! {
    read_figures = novlizeb_read_figures: u32 => u32;
    read_summary = novlizeb_read_summary: f64 => u32;
    read_lines = novlizeb_read_lines: u32 => u64;
    read_blocks = novlizeb_read_blocks: u32 => u64;
    read_rules = novlizeb_read_rules: u32 => u64;
    read_graphics = novlizeb_read_graphics: u32 => u64;
    read_glyphs = novlizeb_read_glyphs: u32 => u64;
    read_columns = novlizeb_read_columns: u32 => u64;
    write_sheet = novlizeb_write_sheet: u8 => u64;
}

pub fn twenty_line_measure(h: Held<'_>) -> u64 {
    // SAFETY: slices with their own lengths (see the module).
    unsafe { raw::novlizeb_twenty_line_measure(h.store.as_ptr(), h.store.len(), h.ink.as_ptr(), h.ink.len(), h.kinds.as_ptr(), h.kinds.len()) }
}

pub fn count_dots(h: Held<'_>, kind: u32, b: [u32; 4]) -> u64 {
    // SAFETY: slices with their own lengths (see the module).
    unsafe { raw::novlizeb_count_dots(h.store.as_ptr(), h.store.len(), h.ink.as_ptr(), h.ink.len(), h.kinds.as_ptr(), h.kinds.len(), kind, b[0], b[1], b[2], b[3]) }
}

pub fn read_dots(h: Held<'_>, kind: u32, b: [u32; 4], out: &mut [u32]) -> u64 {
    // SAFETY: slices with their own lengths (see the module).
    unsafe {
        raw::novlizeb_read_dots(
            h.store.as_ptr(), h.store.len(), h.ink.as_ptr(), h.ink.len(), h.kinds.as_ptr(), h.kinds.len(), kind, b[0], b[1], b[2], b[3], out.as_mut_ptr(), out.len(),
        )
    }
}
