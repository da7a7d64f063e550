//! A leaf as one page for a browser: layers to switch on and off, figures, lists, and the dots of each glyph.
use crate::command::Settings;
use crate::{figures, picture};
use novlizeb::{Kind, Leaf, Rect};
use std::error::Error;
use std::fmt::Write;
use std::path::Path;

const TEMPLATE: &str = include_str!("report.html");

const DIGITS: &[u8; 64] = b"ABCDEFGHIJKLMNOPQRSTUVWXYZabcdefghijklmnopqrstuvwxyz0123456789+/";

/// Bytes in base 64, for a `data:` address.
fn base64(bytes: &[u8]) -> String {
    let mut text = String::with_capacity(bytes.len().div_ceil(3) * 4);
    for part in bytes.chunks(3) {
        let word = part.iter().fold(0u32, |w, &b| w << 8 | u32::from(b)) << (8 * (3 - part.len()));
        for k in 0..4 {
            let digit = DIGITS[(word >> (18 - 6 * k) & 63) as usize];
            text.push(if k <= part.len() { char::from(digit) } else { '=' });
        }
    }
    text
}

/// Text in a page.
fn escaped(text: &str) -> String {
    text.replace('&', "&amp;").replace('<', "&lt;").replace('>', "&gt;").replace('"', "&quot;")
}

/// The dots of one kind as a picture that is clear elsewhere.
fn layer(leaf: &Leaf, width: u32, height: u32, kind: Kind) -> Result<String, Box<dyn Error>> {
    let dots: Vec<u8> = leaf.kinds().iter().map(|&k| u8::from(k == kind.number())).collect();
    let colour = picture::COLOURS[usize::from(kind.number())];
    let mut bytes = Vec::new();
    picture::png(&mut bytes, width, height, &[[255, 255, 255], colour].concat(), &[0, 255], &dots)?;
    Ok(base64(&bytes))
}

fn join<T>(items: &[T], one: impl Fn(&T) -> String) -> String {
    items.iter().map(one).collect::<Vec<_>>().join(",")
}

fn corners(r: &Rect) -> String {
    format!("{},{},{},{}", r.x0, r.y0, r.x1, r.y1)
}

/// The lists, as the page's script reads them.
fn data(leaf: &Leaf, width: u32, height: u32) -> Result<String, Box<dyn Error>> {
    let mut text = format!("{{\"width\":{width},\"height\":{height}");
    let mut list = |name: &str, items: String| {
        let _ = write!(text, ",\"{name}\":[{items}]");
    };
    list("lines", join(&leaf.lines()?, |l| format!("[{},{},{},{},{}]", corners(&l.bbox), l.glyphs, l.ink, l.glyph_height, l.block)));
    list("blocks", join(&leaf.blocks()?, |b| format!("[{},{}]", corners(&b.bbox), b.lines)));
    list("rules", join(&leaf.rules()?, |r| format!("[{}]", corners(r))));
    list("graphics", join(&leaf.graphics()?, |r| format!("[{}]", corners(r))));
    list("glyphs", join(&leaf.glyphs()?, |g| format!("[{},{},{}]", corners(&g.bbox), g.area, g.line.map_or(-1, i64::from))));
    list("columns", join(&leaf.columns()?, |c| format!("[{},{}]", c.first, c.last)));
    text.push('}');
    Ok(text)
}

/// The page.
pub fn page(leaf: &Leaf, path: &Path, settings: &Settings) -> Result<String, Box<dyn Error>> {
    let frame = leaf.frame()?;
    let mut layers = String::new();
    for kind in Kind::ALL {
        let _ = write!(layers, "<img class=\"layer\" id=\"layer-{0}\" alt=\"{0} dots\" src=\"data:image/png;base64,{1}\">", kind.name(), layer(leaf, frame.width, frame.height, kind)?);
    }
    let mut table = String::new();
    for (name, value) in figures::rows(leaf, settings.dpi)? {
        let _ = write!(table, "<tr><th>{}</th><td>{}</td></tr>", escaped(name.trim()), escaped(&value));
    }
    let name = path.file_name().map_or_else(|| path.display().to_string(), |n| n.to_string_lossy().into_owned());
    let fields = [("{{name}}", escaped(&name)), ("{{figures}}", table), ("{{layers}}", layers), ("{{data}}", data(leaf, frame.width, frame.height)?)];
    let mut page = String::new();
    let mut rest = TEMPLATE;
    while let Some((at, key, value)) = fields.iter().filter_map(|(k, v)| rest.find(k).map(|at| (at, *k, v))).min_by_key(|f| f.0) {
        page.push_str(&rest[..at]);
        page.push_str(value);
        rest = &rest[at + key.len()..];
    }
    page.push_str(rest);
    Ok(page)
}

#[cfg(test)]
mod tests {
    use super::base64;

    #[test]
    fn base_64() {
        let known = [("", ""), ("f", "Zg=="), ("fo", "Zm8="), ("foo", "Zm9v"), ("foob", "Zm9vYg=="), ("fooba", "Zm9vYmE="), ("foobar", "Zm9vYmFy")];
        for (text, digits) in known {
            assert_eq!(base64(text.as_bytes()), digits);
        }
    }
}
