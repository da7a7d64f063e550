//! The figures as a table in words.
use novlizeb::{Kind, Leaf, Refusal, Unit};
use std::fmt::Write;
use std::path::Path;

/// Dots as millimetres, where the dots an inch are known.
fn length(dots: f64, dpi: Option<f64>) -> String {
    let plain = |v: f64| if v == v.trunc() { format!("{v}") } else { format!("{v:.2}") };
    match dpi {
        Some(dpi) if dpi > 0.0 => format!("{} dots, {:.2} mm", plain(dots), dots * 25.4 / dpi),
        _ => format!("{} dots", plain(dots)),
    }
}

/// The names and values of the table.
pub fn rows(leaf: &Leaf, dpi: Option<f64>) -> Result<Vec<(String, String)>, Refusal> {
    let frame = leaf.frame()?;
    let figures = leaf.figures()?;
    let summary = leaf.summary()?;
    let x = figures.unit.value();
    let how = match figures.unit {
        Unit::Measured(_) => "measured",
        Unit::Assumed(_) => "assumed: no component counts for it",
    };
    let pitch = summary.median_line_pitch_xh;
    let row = |name: &str, value: String| (name.to_owned(), value);
    let mut rows = vec![
        row("page", format!("{} x {} dots", frame.page_width, frame.page_height)),
        row("levelled", format!("{} x {} dots, skew {} degrees", frame.width, frame.height, frame.skew)),
        row("x-height", format!("{} ({how})", length(x, dpi))),
        row("line pitch", if pitch == 0.0 { "none: no two lines follow in a block".into() } else { format!("{pitch:.2} x-heights, {}", length(pitch * x, dpi)) }),
        row("twenty lines", match leaf.twenty_line_measure()? { 0 => "none".into(), n => length(f64::from(n), dpi) }),
        row("glyph height", format!("{:.2} x-heights (median of lines)", summary.median_glyph_height_xh)),
        row("lines", figures.lines.to_string()),
        row("blocks", figures.blocks.to_string()),
        row("columns", figures.columns.to_string()),
        row("glyphs", figures.glyphs.to_string()),
        row("rules", figures.rules.to_string()),
        row("graphics", figures.graphics.to_string()),
        row("ink", format!("{} dots", figures.ink)),
    ];
    for kind in Kind::ALL {
        let dots = figures.of(kind);
        let share = if figures.ink == 0 { 0.0 } else { 100.0 * f64::from(dots) / f64::from(figures.ink) };
        rows.push((format!("  {}", kind.name()), format!("{dots} dots, {share:.1} percent")));
    }
    let sum: u64 = Kind::ALL.iter().map(|&k| u64::from(figures.of(k))).sum();
    rows.push(row("  together", format!("{sum} dots")));
    Ok(rows)
}

/// The table.
pub fn table(leaf: &Leaf, path: &Path, dpi: Option<f64>) -> Result<String, Refusal> {
    let mut text = String::new();
    let _ = writeln!(text, "{}", path.display());
    for (name, value) in rows(leaf, dpi)? {
        let _ = writeln!(text, "  {name:<14}  {value}");
    }
    Ok(text)
}
