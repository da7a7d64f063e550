//! The Rust's answers for small random pages, as a module of proofs over this project's definitions: one equation a page,
//! which the checker closes by computing. `compare/definitions` writes it into a copy of the project and checks it there.

use original::pixel::layout::{summarize, Layout, LayoutParams, Rect};

use crate::random::Random;

/// The names of `summarize`'s numbers, in the order in which it puts them.
pub const SUMMARY: [&str; 12] = [
    "xheight_px",
    "skew_deg_applied",
    "glyphs",
    "lines",
    "blocks",
    "columns",
    "rules",
    "graphics",
    "glyph_ink_fraction",
    "text_share_of_ink",
    "median_line_pitch_xh",
    "median_glyph_height_xh",
];

/// What the module begins with: all that is compared of a page, as rows of numbers.
const HEAD: &str = "\
use mathlib.Core.Path.{◌≡◌, refl}
use mathlib.Core.List.{List, [], ◌∷◌, ◌++◌, map}
use mathlib.Core.Bool.{cond}
use Prim.Native.Nat.{ℕ}
use lib.Dec.{leb}
use lib.Ieee.{Float, binary64, of_bits, to_bits}
use Rattle.params.specs.declared.LayoutParams.{LayoutParams}
use Rattle.memory.specs.declared.rect.Rect.{Rect}
use Rattle.grouping.specs.rules.Readings.{summary_numbers}
use Rattle.segmenting.specs.rules.Layouts.{Page, page}
use Rattle.segmenting.specs.rules.LayoutReadings.{summary}
use Rattle.segmenting.proofs.Computed.{computed}
use Rattle.listing.specs.rules.Pages.{corners, head_figures, line_figures, block_figures, glyph_figures, column_figures}

rows : Page → List (List ℕ)
unfolding computed head_figures line_figures block_figures glyph_figures column_figures
rows p =
    let l = p.layout in
    head_figures p ∷ []
    ++ map line_figures l.lines
    ++ map block_figures l.blocks
    ++ map (λ (r : Rect). 3 ∷ corners r) l.rules
    ++ map (λ (r : Rect). 4 ∷ corners r) l.graphics
    ++ map glyph_figures l.glyphs
    ++ map column_figures l.columns
    ++ ((l.ink_pixels ∷ l.counts.cut ∷ l.counts.glyph ∷ [])
    ∷ p.levelled.frame.shear
    ∷ p.levelled.frame.shear_x
    ∷ map (to_bits binary64) (summary_numbers (summary p.levelled.frame p.levelled.skew l))
    ∷ map (λ k. cond (leb 2 k) 1 0) l.plane
    ∷ [])
";

/// The module with this many pages.
pub fn module(pages: u64) -> String {
    let mut random = Random::new();
    let mut text = HEAD.to_owned();
    for i in 0..pages {
        text += &case(i, &mut random);
    }
    text
}

/// A random page with its sheet, and the equation of its rows with the Rust's.
fn case(i: u64, random: &mut Random) -> String {
    let (w, h) = (1 + random.below(8) as usize, 1 + random.below(7) as usize);
    let density = 1 + random.below(8);
    let mask: Vec<u8> = (0..w * h).map(|_| u8::from(random.below(10) < density)).collect();
    let sheet = sheet(random);
    let skew = random.pick(&[0.0, -0.0, 1.0, -3.0, 0.4, 45.0]);
    let slope = random.pick(&[0.0, -0.0, 0.1, 0.3, -0.3, 0.5, -0.5, 1.0, -1.0]);
    let layout = original::segment_mask(&mask, w, h, skew, slope, &sheet).expect("the page is accepted");
    let dots: Vec<u64> = mask.iter().map(|&dot| u64::from(dot)).collect();
    let rows: Vec<String> = rows(&layout).iter().map(|row| format!("({})", list(row))).collect();
    format!(
        "\nsheet-{i} : LayoutParams\nsheet-{i} = {}\n\npage-{i} : rows (page ({}) {w} {h} ({}) ({}) sheet-{i} sheet-{i}) ≡ {} ∷ []\n\
         unfolding computed rows sheet-{i} head_figures line_figures block_figures glyph_figures column_figures\npage-{i} = refl\n",
        record(&sheet),
        list(&dots),
        float(skew),
        float(slope),
        rows.join(" ∷ "),
    )
}

/// A valid sheet of values at which small pages differ.
pub fn sheet(random: &mut Random) -> LayoutParams {
    LayoutParams {
        glyph_min_area: 1 + random.below(3) as u32,
        glyph_max_extent_frac: random.pick(&[1.0, 0.9, 0.5, 0.7]),
        xheight_min_area: random.below(3) as u32,
        xheight_fallback_px: random.pick(&[1.0, 1.5, 2.0, 3.0]),
        rule_min_len_xh: random.pick(&[2.0, 4.0, 1.5, 3.0]),
        rule_max_thick_xh: random.pick(&[0.5, 1.0, 0.3]),
        rule_run_xh: random.pick(&[1.0, 2.0, 4.0, 1.5]),
        graphic_min_xh: random.pick(&[2.0, 3.0, 8.0]),
        smear_xh: random.pick(&[0.5, 1.0, 0.35, 2.0]),
        line_min_glyphs: 1 + random.below(2) as u32,
        line_min_height_xh: random.pick(&[0.0, 0.5, 1.0]),
        line_max_height_xh: random.pick(&[1.0, 2.0, 3.0]),
        block_min_overlap: random.pick(&[0.0, 0.5, 1.0, 0.55]),
        block_gap_margin_lines: random.pick(&[0.0, 0.5]),
        block_max_gap_lines: random.pick(&[0.0, 1.0, 3.0]),
        column_gap_xh: random.pick(&[0.0, 0.5, 1.0, 2.0]),
        column_cover_frac: random.pick(&[0.0, 0.5, 0.3]),
        shear_min_deg: random.pick(&[0.0, 0.0, 0.5, 2.0]),
    }
}

/// The Rust's results as the rows of [`HEAD`].
fn rows(layout: &Layout) -> Vec<Vec<u64>> {
    let sides = [layout.width, layout.height, layout.page_width, layout.page_height];
    let mut rows = vec![[&[0, 1], &sides.map(|side| side as u64)[..], &[layout.xheight.to_bits()]].concat()];
    for line in &layout.lines {
        let figures = [
            u64::from(line.glyphs),
            line.ink_area,
            u64::from(line.glyph_height),
            line.block as u64,
        ];
        rows.push([&[1], &corners(&line.bbox)[..], &figures].concat());
    }
    for block in &layout.blocks {
        rows.push([&[2], &corners(&block.bbox)[..], &[block.lines.len() as u64]].concat());
    }
    rows.extend(layout.rules.iter().map(|rect| [&[3], &corners(rect)[..]].concat()));
    rows.extend(layout.graphics.iter().map(|rect| [&[4], &corners(rect)[..]].concat()));
    for glyph in &layout.glyphs {
        let line = glyph.line.map_or(0xFFF, |line| line as u64);
        rows.push([&[5], &corners(&glyph.bbox)[..], &[u64::from(glyph.area), line]].concat());
    }
    rows.extend(
        layout
            .columns
            .iter()
            .map(|&(x0, x1)| vec![6, u64::from(x0), u64::from(x1)]),
    );
    let left: u64 = layout.ink.iter().map(|&dot| u64::from(dot)).sum();
    rows.push(vec![
        layout.ink_pixels,
        layout.ink_pixels - left,
        layout.glyph_ink_pixels,
    ]);
    rows.push(layout.shear.iter().map(|&rows| rows as u64).collect());
    rows.push(layout.shear_x.iter().map(|&columns| columns as u64).collect());
    let features = summarize(layout).features;
    rows.push(SUMMARY.iter().map(|&name| features[name].to_bits()).collect());
    rows.push(layout.ink.iter().map(|&dot| u64::from(dot)).collect());
    rows
}

fn corners(rect: &Rect) -> [u64; 4] {
    [rect.x0, rect.y0, rect.x1, rect.y1].map(u64::from)
}

fn list(numbers: &[u64]) -> String {
    numbers.iter().map(|n| format!("{n} ∷ ")).collect::<String>() + "[]"
}

fn float(x: f64) -> String {
    format!("of_bits binary64 0x{:016X}", x.to_bits())
}

/// The sheet as the record that antt writes.
fn record(sheet: &LayoutParams) -> String {
    let fields = [
        ("glyph_min_area", sheet.glyph_min_area.to_string()),
        ("glyph_max_extent_frac", float(sheet.glyph_max_extent_frac)),
        ("xheight_min_area", sheet.xheight_min_area.to_string()),
        ("xheight_fallback_px", float(sheet.xheight_fallback_px)),
        ("rule_min_len_xh", float(sheet.rule_min_len_xh)),
        ("rule_max_thick_xh", float(sheet.rule_max_thick_xh)),
        ("rule_run_xh", float(sheet.rule_run_xh)),
        ("graphic_min_xh", float(sheet.graphic_min_xh)),
        ("smear_xh", float(sheet.smear_xh)),
        ("line_min_glyphs", sheet.line_min_glyphs.to_string()),
        ("line_min_height_xh", float(sheet.line_min_height_xh)),
        ("line_max_height_xh", float(sheet.line_max_height_xh)),
        ("block_min_overlap", float(sheet.block_min_overlap)),
        ("block_gap_margin_lines", float(sheet.block_gap_margin_lines)),
        ("block_max_gap_lines", float(sheet.block_max_gap_lines)),
        ("column_gap_xh", float(sheet.column_gap_xh)),
        ("column_cover_frac", float(sheet.column_cover_frac)),
        ("shear_min_deg", float(sheet.shear_min_deg)),
    ];
    let body: Vec<String> = fields
        .iter()
        .map(|(name, value)| format!("{name} = {value}"))
        .collect();
    format!("record {{ {} }}", body.join("; "))
}
