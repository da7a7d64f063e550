//! The store's entries as a host program calls them: the C exports of `crates/novlizeb`, in safe Rust. A slice crosses as a pointer
//! and a length; an answer of 64 bits is a number and a value.

use original::pixel::layout::LayoutParams;

use crate::ours::Answer;

type Words = *const u32;
type Bytes = *const u8;

mod c {
    use super::{Bytes, Words};

    /// The eighteen numbers of a sheet stand among the arguments, in the order of its fields.
    macro_rules! with_sheet {
        ($name:ident, ($($before:ident: $kind:ty),*), ($($after:ident: $type:ty),*)) => {
            pub fn $name(
                $($before: $kind,)*
                glyph_min_area: u32,
                glyph_max_extent_frac: f64,
                xheight_min_area: u32,
                xheight_fallback_px: f64,
                rule_min_len_xh: f64,
                rule_max_thick_xh: f64,
                rule_run_xh: f64,
                graphic_min_xh: f64,
                smear_xh: f64,
                line_min_glyphs: u32,
                line_min_height_xh: f64,
                line_max_height_xh: f64,
                block_min_overlap: f64,
                block_gap_margin_lines: f64,
                block_max_gap_lines: f64,
                column_gap_xh: f64,
                column_cover_frac: f64,
                shear_min_deg: f64,
                $($after: $type),*
            ) -> u32;
        };
    }

    /// Readings of results take the store and both planes first.
    macro_rules! reading {
        ($name:ident($($argument:ident: $type:ty),*) -> $answer:ty) => {
            pub fn $name(
                store: Words,
                store_length: usize,
                ink: Bytes,
                ink_length: usize,
                kinds: Bytes,
                kinds_length: usize,
                $($argument: $type),*
            ) -> $answer;
        };
    }

    extern "C" {
        with_sheet! {
            novlizeb_level,
            (mask: Bytes, mask_length: usize, width: u32, height: u32, skew: f64, slope: f64),
            (capacity: u32, store: *mut u32, store_length: usize, ink: *mut u8, ink_length: usize)
        }
        with_sheet! {
            novlizeb_segment,
            (),
            (store: *mut u32, store_length: usize, ink: Bytes, ink_length: usize, kinds: *mut u8, kinds_length: usize,
             scratch: *mut u32, scratch_length: usize)
        }
        pub fn novlizeb_clear(store: *mut u32, store_length: usize) -> u32;
        pub fn novlizeb_to_page(
            store: Words,
            store_length: usize,
            x: u32,
            y: u32,
            point: *mut i32,
            length: usize,
        ) -> u32;
        pub fn novlizeb_rect_to_page(
            store: Words,
            store_length: usize,
            x0: u32,
            y0: u32,
            x1: u32,
            y1: u32,
            rect: *mut i32,
            length: usize,
        ) -> u32;
        pub fn novlizeb_level_gray(
            store: Words,
            store_length: usize,
            gray: Bytes,
            gray_length: usize,
            out: *mut u8,
            length: usize,
        ) -> u32;
        pub fn novlizeb_read_frame(store: Words, store_length: usize, out: *mut u32, length: usize) -> u32;
        reading! { novlizeb_read_figures(out: *mut u32, length: usize) -> u32 }
        reading! { novlizeb_read_summary(out: *mut f64, length: usize) -> u32 }
        reading! { novlizeb_read_columns(out: *mut u32, length: usize) -> u64 }
        reading! { novlizeb_read_rules(out: *mut u32, length: usize) -> u64 }
        reading! { novlizeb_read_graphics(out: *mut u32, length: usize) -> u64 }
        reading! { novlizeb_read_glyphs(out: *mut u32, length: usize) -> u64 }
        reading! { novlizeb_read_lines(out: *mut u32, length: usize) -> u64 }
        reading! { novlizeb_read_blocks(out: *mut u32, length: usize) -> u64 }
        reading! { novlizeb_twenty_line_measure() -> u64 }
        reading! { novlizeb_count_dots(kind: u32, x0: u32, y0: u32, x1: u32, y1: u32) -> u64 }
        reading! { novlizeb_read_dots(kind: u32, x0: u32, y0: u32, x1: u32, y1: u32, out: *mut u32, length: usize) -> u64 }
        reading! { novlizeb_write_sheet(out: *mut u8, length: usize) -> u64 }
        pub fn novlizeb_frame_size(width: u32, height: u32, slope: f64) -> u64;
    }
}

/// A store and its planes, as a reading of results is lent them.
#[derive(Clone, Copy)]
pub struct Held<'a> {
    pub store: &'a [u32],
    pub ink: &'a [u8],
    pub kinds: &'a [u8],
}

/// The lists of results, in the order of their places in the store.
#[derive(Clone, Copy, Debug, PartialEq)]
pub enum Which {
    Columns,
    Rules,
    Graphics,
    Glyphs,
    Lines,
    Blocks,
}

/// A mask with its sides, skew and slope.
#[derive(Clone, Copy)]
pub struct Page<'a> {
    pub mask: &'a [u8],
    pub width: u32,
    pub height: u32,
    pub skew: f64,
    pub slope: f64,
}

/// A call with the eighteen numbers of a sheet among its arguments.
macro_rules! call_with_sheet {
    ($f:path, [$($before:expr),*], $p:expr, [$($after:expr),*]) => {
        $f(
            $($before,)*
            $p.glyph_min_area,
            $p.glyph_max_extent_frac,
            $p.xheight_min_area,
            $p.xheight_fallback_px,
            $p.rule_min_len_xh,
            $p.rule_max_thick_xh,
            $p.rule_run_xh,
            $p.graphic_min_xh,
            $p.smear_xh,
            $p.line_min_glyphs,
            $p.line_min_height_xh,
            $p.line_max_height_xh,
            $p.block_min_overlap,
            $p.block_gap_margin_lines,
            $p.block_max_gap_lines,
            $p.column_gap_xh,
            $p.column_cover_frac,
            $p.shear_min_deg,
            $($after),*
        )
    };
}

/// A call whose first arguments are the store and both planes.
macro_rules! call_reading {
    ($f:path, $held:expr $(, $argument:expr)*) => {
        unsafe {
            $f(
                $held.store.as_ptr(),
                $held.store.len(),
                $held.ink.as_ptr(),
                $held.ink.len(),
                $held.kinds.as_ptr(),
                $held.kinds.len(),
                $($argument),*
            )
        }
    };
}

/// Document 01's number of a refusal, 0 where there is none.
pub fn level(page: Page, p: &LayoutParams, capacity: u32, store: &mut [u32], ink: &mut [u8]) -> u32 {
    let mask = page.mask;
    unsafe {
        call_with_sheet!(
            c::novlizeb_level,
            [
                mask.as_ptr(),
                mask.len(),
                page.width,
                page.height,
                page.skew,
                page.slope
            ],
            p,
            [capacity, store.as_mut_ptr(), store.len(), ink.as_mut_ptr(), ink.len()]
        )
    }
}

pub fn segment(p: &LayoutParams, store: &mut [u32], ink: &[u8], kinds: &mut [u8], scratch: &mut [u32]) -> u32 {
    unsafe {
        call_with_sheet!(
            c::novlizeb_segment,
            [],
            p,
            [
                store.as_mut_ptr(),
                store.len(),
                ink.as_ptr(),
                ink.len(),
                kinds.as_mut_ptr(),
                kinds.len(),
                scratch.as_mut_ptr(),
                scratch.len()
            ]
        )
    }
}

pub fn clear(store: &mut [u32]) -> u32 {
    unsafe { c::novlizeb_clear(store.as_mut_ptr(), store.len()) }
}

pub fn to_page(store: &[u32], x: u32, y: u32, out: &mut [i32]) -> u32 {
    unsafe { c::novlizeb_to_page(store.as_ptr(), store.len(), x, y, out.as_mut_ptr(), out.len()) }
}

pub fn rect_to_page(store: &[u32], corners: [u32; 4], out: &mut [i32]) -> u32 {
    let [x0, y0, x1, y1] = corners;
    unsafe { c::novlizeb_rect_to_page(store.as_ptr(), store.len(), x0, y0, x1, y1, out.as_mut_ptr(), out.len()) }
}

pub fn level_gray(store: &[u32], gray: &[u8], out: &mut [u8]) -> u32 {
    let (length, to) = (out.len(), out.as_mut_ptr());
    unsafe { c::novlizeb_level_gray(store.as_ptr(), store.len(), gray.as_ptr(), gray.len(), to, length) }
}

pub fn read_frame(store: &[u32], out: &mut [u32]) -> u32 {
    unsafe { c::novlizeb_read_frame(store.as_ptr(), store.len(), out.as_mut_ptr(), out.len()) }
}

pub fn read_figures(held: Held, out: &mut [u32]) -> u32 {
    call_reading!(c::novlizeb_read_figures, held, out.as_mut_ptr(), out.len())
}

pub fn read_summary(held: Held, out: &mut [f64]) -> u32 {
    call_reading!(c::novlizeb_read_summary, held, out.as_mut_ptr(), out.len())
}

/// The value is how many records the list has.
pub fn read_list(held: Held, which: Which, out: &mut [u32]) -> Answer {
    let (length, to) = (out.len(), out.as_mut_ptr());
    Answer::of(match which {
        Which::Columns => call_reading!(c::novlizeb_read_columns, held, to, length),
        Which::Rules => call_reading!(c::novlizeb_read_rules, held, to, length),
        Which::Graphics => call_reading!(c::novlizeb_read_graphics, held, to, length),
        Which::Glyphs => call_reading!(c::novlizeb_read_glyphs, held, to, length),
        Which::Lines => call_reading!(c::novlizeb_read_lines, held, to, length),
        Which::Blocks => call_reading!(c::novlizeb_read_blocks, held, to, length),
    })
}

pub fn twenty_line_measure(held: Held) -> Answer {
    Answer::of(call_reading!(c::novlizeb_twenty_line_measure, held))
}

pub fn count_dots(held: Held, kind: u32, corners: [u32; 4]) -> Answer {
    let [x0, y0, x1, y1] = corners;
    Answer::of(call_reading!(c::novlizeb_count_dots, held, kind, x0, y0, x1, y1))
}

/// The value is how many dots are listed.
pub fn read_dots(held: Held, kind: u32, corners: [u32; 4], out: &mut [u32]) -> Answer {
    let [x0, y0, x1, y1] = corners;
    Answer::of(call_reading!(
        c::novlizeb_read_dots,
        held,
        kind,
        x0,
        y0,
        x1,
        y1,
        out.as_mut_ptr(),
        out.len()
    ))
}

/// The value is how many bytes the sheet has.
pub fn write_sheet(held: Held, out: &mut [u8]) -> Answer {
    Answer::of(call_reading!(
        c::novlizeb_write_sheet,
        held,
        out.as_mut_ptr(),
        out.len()
    ))
}

/// The frame's width and height; both 0 outside the limits.
pub fn frame_size(width: u32, height: u32, slope: f64) -> (u32, u32) {
    let word = unsafe { c::novlizeb_frame_size(width, height, slope) };
    (word as u32, (word >> 32) as u32)
}
