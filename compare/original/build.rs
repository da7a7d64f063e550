//! Names the original's files to the compiler, from the folder that the variable PAGETRIAGE_SRC gives (or else
//! `../shared/docs/src` beside the project). Nothing of them is copied into the repository.
//!
//! Two files are written to OUT_DIR, `root.rs` and `pixel.rs`, each with `mod` items for `src/lib.rs` to include:
//! - `unchanged` declares a module that is the original's file itself;
//! - `with_wrappers` declares one that is the file's text with wrappers appended, where a part needs private functions.

use std::fs;
use std::path::{Path, PathBuf};

/// Lines of `segment` in `layout.rs`, from the first of these to the last: those that level the mask ..
const LEVELLING: [&str; 2] = [
    "    let applied = if skew_deg.abs() >= p.shear_min_deg {",
    "    let (width, height) = (full_w, full_h);",
];

/// .. those with the extents that a glyph is under ..
const EXTENTS: [&str; 2] = [
    "    let max_w = p.glyph_max_extent_frac * width as f64;",
    "    let max_h = p.glyph_max_extent_frac * height as f64;",
];

/// .. those with the limits of a thin ruling ..
const LIMITS: [&str; 2] = [
    "    let run_min = ((p.rule_run_xh * xheight)",
    "    let thick_max = ((p.rule_max_thick_xh * xheight).round() as usize).max(1);",
];

/// .. and those that say which kind a component is;
const KIND: [&str; 2] = [
    "            let (w, h) = (f64::from(c.width()), f64::from(c.height()));",
    "                Kind::Glyph\n            }",
];

/// .. those from the first labelling to that of the smoothed glyphs ..
const SORTING: [&str; 2] = [
    "    let mut lab = components::label_8(&ink, width, height);",
    "    let rows = components::label_8(&smeared, width, height);",
];

/// .. of those, the ones before the rulings are cut ..
const MEASURING: [&str; 2] = [
    "    let mut lab = components::label_8(&ink, width, height);",
    "    let thick_max = ((p.rule_max_thick_xh * xheight).round() as usize).max(1);",
];

/// .. and the ones up to the kind of each component.
const SORTED: [&str; 2] = [
    "    let mut lab = components::label_8(&ink, width, height);",
    "                Kind::Glyph\n            }\n        })\n        .collect();",
];

/// What the comparison needs of `layout.rs` that is private there. A later part adds its own lines here.
const LAYOUT_WRAPPERS: &str = r#"
pub fn compare_extent_through(ink: &[u8], width: usize, height: usize, vertical: bool) -> Vec<u16> {
    extent_through(ink, width, height, vertical)
}

pub fn compare_thin_ruling_pixels(
    ink: &[u8],
    width: usize,
    height: usize,
    run_min: usize,
    thick_max: usize,
) -> (Vec<u8>, Vec<u8>) {
    thin_ruling_pixels(ink, width, height, run_min, thick_max)
}

pub fn compare_median_u32(values: &mut [u32]) -> u32 {
    median_u32(values)
}
"#;

struct Original {
    source: PathBuf,
    out: PathBuf,
}

impl Original {
    /// The path of one of the original's files, watched for changes.
    fn file(&self, name: &str) -> PathBuf {
        let path = self.source.join("crates/pagetriage-core/src").join(name);
        if !path.is_file() {
            panic!(
                "{} is not there: set PAGETRIAGE_SRC to the folder that holds the original's `crates`",
                path.display()
            );
        }
        println!("cargo:rerun-if-changed={}", path.display());
        path
    }

    /// A module that is the original's file itself.
    fn unchanged(&self, module: &str, name: &str) -> String {
        declared(module, &self.file(name))
    }

    /// A module that is the original's file with `wrappers` after it.
    fn with_wrappers(&self, module: &str, name: &str, wrappers: &str) -> String {
        let text = fs::read_to_string(self.file(name)).expect("the original's file is read");
        let copy = self.out.join(format!("{module}.with_wrappers.rs"));
        fs::write(&copy, text + wrappers).expect("OUT_DIR takes a file");
        declared(module, &copy)
    }

    /// Lines of `segment`, word for word.
    fn lines(&self, ends: [&str; 2]) -> String {
        let text = fs::read_to_string(self.file("pixel/layout.rs")).expect("the original's file is read");
        let from = text.find(ends[0]).expect("the first line");
        let length = text[from..].find(ends[1]).expect("the last line") + ends[1].len();
        text[from..from + length].to_owned()
    }

    /// Functions of `segment`'s own lines.
    fn of_lines(&self) -> String {
        let (levelling, extents) = (self.lines(LEVELLING), self.lines(EXTENTS));
        let (limits, kind, sorting) = (self.lines(LIMITS), self.lines(KIND), self.lines(SORTING));
        let (measuring, sorted) = (self.lines(MEASURING), self.lines(SORTED));
        format!(
            "
pub fn compare_level(ink: Vec<u8>, width: usize, height: usize, skew_deg: f64, p: &LayoutParams) -> Layout {{
{levelling}
    Layout {{
        width, height, page_width, page_height, skew_deg: applied, shear, shear_x, xheight: 1.0, glyph_count: 0,
        glyph_ink_pixels: 0, ink_pixels: 0, lines: Vec::new(), glyphs: Vec::new(), ink, blocks: Vec::new(),
        rules: Vec::new(), graphics: Vec::new(), columns: Vec::new(),
    }}
}}

pub fn compare_limits(xheight: f64, p: &LayoutParams) -> (usize, usize) {{
{limits}
    (run_min, thick_max)
}}

pub fn compare_kind(c: &Component, width: usize, height: usize, xheight: f64, p: &LayoutParams) -> u32 {{
{extents}
    let kind = {{
{kind}
    }};
    match kind {{
        Kind::Rule => 2,
        Kind::Graphic => 3,
        Kind::Glyph => 4,
        Kind::Speck => 5,
    }}
}}

/// How many components each labelling has: ink, horizontal cuts, vertical cuts, ink after the cut, smoothed glyphs; whether any of
/// them could be measured; and the kind of each dot.
#[allow(unused_variables, unused_assignments, unused_mut)]
pub fn compare_sorted(ink: Vec<u8>, width: usize, height: usize, p: &LayoutParams) -> ([usize; 5], bool, Vec<u8>) {{
    let uncut = ink.clone();
{sorting}
    let count = |mask: &[u8]| components::label_8(mask, width, height).components.len();
    let counts = [count(&uncut), count(&cut_h), count(&cut_v), lab.components.len(), rows.components.len()];
    let large = p.xheight_min_area.max(p.glyph_min_area);
    let measured = lab
        .components
        .iter()
        .any(|c| c.area >= large && f64::from(c.width()) < max_w && f64::from(c.height()) < max_h);
    let kind = |i: usize| match (uncut[i], lab.labels[i]) {{
        (0, _) => 0,
        (_, 0) => 1,
        (_, label) => match kinds[(label - 1) as usize] {{
            Kind::Rule => 2,
            Kind::Graphic => 3,
            Kind::Glyph => 4,
            Kind::Speck => 5,
        }},
    }};
    (counts, measured, (0..uncut.len()).map(kind).collect())
}}

/// The limits of thin rulings of this ink.
#[allow(unused_variables, unused_mut)]
pub fn compare_measured(ink: &[u8], width: usize, height: usize, p: &LayoutParams) -> (usize, usize) {{
{measuring}
    (run_min, thick_max)
}}

/// How many dots of ink there are, how many rulings were cut, how many components are left, and how many of them are glyphs.
#[allow(unused_variables, unused_mut)]
pub fn compare_sort(ink: Vec<u8>, width: usize, height: usize, p: &LayoutParams) -> (u64, usize, f64, usize, usize) {{
{sorted}
    let glyphs = kinds.iter().filter(|&&kind| kind == Kind::Glyph).count();
    (ink_pixels, rules.len(), xheight, lab.components.len(), glyphs)
}}
"
        )
    }

    fn write(&self, name: &str, items: &[String]) {
        fs::write(self.out.join(name), items.concat()).expect("OUT_DIR takes a file");
    }
}

fn declared(module: &str, path: &Path) -> String {
    format!("#[path = {:?}]\npub mod {module};\n", path.display().to_string())
}

fn main() {
    println!("cargo:rerun-if-env-changed=PAGETRIAGE_SRC");
    println!("cargo:rerun-if-changed=build.rs");
    let here = PathBuf::from(std::env::var("CARGO_MANIFEST_DIR").expect("cargo sets it"));
    let source =
        std::env::var_os("PAGETRIAGE_SRC").map_or_else(|| here.join("../../../shared/docs/src"), PathBuf::from);
    let out = PathBuf::from(std::env::var("OUT_DIR").expect("cargo sets it"));
    let original = Original { source, out };
    let wrappers = LAYOUT_WRAPPERS.to_owned() + &original.of_lines();
    original.write("root.rs", &[original.unchanged("math", "math.rs")]);
    original.write(
        "pixel.rs",
        &[
            original.unchanged("components", "pixel/components.rs"),
            original.with_wrappers("layout", "pixel/layout.rs", &wrappers),
        ],
    );
}
