//! Many scans: a line of CSV each.
use crate::command::Settings;
use crate::{output, Failure};
use novlizeb::{Kind, Leaf, Refusal, Unit};
use std::fs;
use std::io::{self, IsTerminal, Write};
use std::path::{Path, PathBuf};

const HEADER: &str = "file,page_width,page_height,frame_width,frame_height,skew,xheight,measured,line_pitch_xh,glyph_height_xh,twenty_lines,lines,blocks,columns,glyphs,rules,graphics,ink,cut,rule,graphic,glyph,speck\n";

/// The scans that are named: a folder stands for the PBM and PNG files in it, by name.
fn scans(paths: &[PathBuf]) -> Result<Vec<PathBuf>, Failure> {
    let mut all = Vec::new();
    for path in paths {
        if !path.is_dir() {
            all.push(path.clone());
            continue;
        }
        let entries = fs::read_dir(path).map_err(|wrong| Failure::new(path.display(), wrong))?;
        let mut found: Vec<PathBuf> = entries.filter_map(|e| e.ok().map(|e| e.path())).filter(|p| is_scan(p)).collect();
        found.sort();
        all.append(&mut found);
    }
    Ok(all)
}

fn is_scan(path: &Path) -> bool {
    path.extension().and_then(|e| e.to_str()).is_some_and(|e| e.eq_ignore_ascii_case("pbm") || e.eq_ignore_ascii_case("png")) && path.is_file()
}

/// A name as a field of CSV.
fn field(text: &str) -> String {
    if text.contains([',', '"', '\n', '\r']) { format!("\"{}\"", text.replace('"', "\"\"")) } else { text.to_owned() }
}

fn line(leaf: &Leaf, path: &Path) -> Result<String, Refusal> {
    let (frame, f, s) = (leaf.frame()?, leaf.figures()?, leaf.summary()?);
    let measured = u8::from(matches!(f.unit, Unit::Measured(_)));
    let mut fields = vec![field(&path.to_string_lossy())];
    fields.extend([frame.page_width, frame.page_height, frame.width, frame.height].map(|n| n.to_string()));
    fields.extend([frame.skew.to_string(), f.unit.value().to_string(), measured.to_string(), s.median_line_pitch_xh.to_string(), s.median_glyph_height_xh.to_string()]);
    fields.extend([leaf.twenty_line_measure()?, f.lines, f.blocks, f.columns, f.glyphs, f.rules, f.graphics, f.ink].map(|n| n.to_string()));
    fields.extend(Kind::ALL.map(|k| f.of(k).to_string()));
    Ok(fields.join(",") + "\n")
}

/// A bar on standard error, where that is a terminal.
fn progress(done: usize, all: usize, bad: usize) {
    const WIDTH: usize = 40;
    if io::stderr().is_terminal() {
        let full = if all == 0 { WIDTH } else { WIDTH * done / all };
        let _ = write!(io::stderr(), "\r[{}{}] {done} of {all}, {bad} bad ", "#".repeat(full), " ".repeat(WIDTH - full));
    }
}

/// Measures each scan; one that is bad is told at the end, and the others go on.
pub fn run(paths: &[PathBuf], header: bool, settings: &Settings) -> Result<(), Failure> {
    let scans = scans(paths)?;
    if scans.is_empty() {
        return Err(Failure::new(paths.first().map(|p| p.display().to_string()).unwrap_or_default(), "there is no PBM or PNG in it"));
    }
    if header {
        output::print(HEADER.as_bytes())?;
    }
    let mut bad = Vec::new();
    for (k, path) in scans.iter().enumerate() {
        progress(k, scans.len(), bad.len());
        match settings.measure(path).and_then(|leaf| line(&leaf, path).map_err(|r| Failure::new(path.display(), r))) {
            Ok(line) => output::print(line.as_bytes())?,
            Err(failure) => bad.push(failure),
        }
    }
    progress(scans.len(), scans.len(), bad.len());
    if io::stderr().is_terminal() {
        eprintln!();
    }
    for failure in &bad {
        eprintln!("leaf: {failure}");
    }
    if bad.is_empty() { Ok(()) } else { Err(Failure::new(format!("{} of {} scans", bad.len(), scans.len()), "not measured, see above")) }
}
