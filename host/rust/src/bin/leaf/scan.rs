//! Scans: PBM (P1, P4) and PNG.
use crate::Failure;
use novlizeb::{Mask, Refusal, MAX_PAGE_SIDE};
use std::fs::File;
use std::io::{BufReader, Read};
use std::path::Path;

/// A file of a scan has at most so many bytes: a P1 of the largest page with a blank behind each dot, and more.
const MOST_BYTES: u64 = 1 << 28;

/// Below this a dot of a PNG is ink.
const HALF: u32 = 128;

/// Reads a scan; its bytes tell what it is.
pub fn read(path: &Path) -> Result<Mask, Failure> {
    let about = |wrong: &dyn std::fmt::Display| Failure::new(path.display(), wrong);
    let file = File::open(path).map_err(|wrong| about(&wrong))?;
    let mut bytes = Vec::new();
    BufReader::new(file).take(MOST_BYTES + 1).read_to_end(&mut bytes).map_err(|wrong| about(&wrong))?;
    if bytes.len() as u64 > MOST_BYTES {
        return Err(about(&"the file is longer than any scan of 8192 x 8192"));
    }
    match bytes.get(..8) {
        _ if bytes.starts_with(b"P1") || bytes.starts_with(b"P4") => pbm(&bytes).map_err(|wrong| about(&wrong)),
        Some(b"\x89PNG\r\n\x1a\n") => png(&bytes).map_err(|wrong| about(&wrong)),
        _ => Err(about(&"neither a PBM (P1 or P4) nor a PNG")),
    }
}

fn judged(width: u32, height: u32) -> Result<(), String> {
    if (1..=MAX_PAGE_SIDE).contains(&width) && (1..=MAX_PAGE_SIDE).contains(&height) {
        Ok(())
    } else {
        Err(format!("{} (it has {width} x {height})", Refusal::Sides))
    }
}

/// A PBM: a head of two numbers, then dots, 1 black. Comments go from `#` to the end of their line.
pub fn pbm(bytes: &[u8]) -> Result<Mask, String> {
    let packed = bytes.get(1) == Some(&b'4');
    let mut at = 2;
    let width = head_number(bytes, &mut at)?;
    let height = head_number(bytes, &mut at)?;
    judged(width, height)?;
    let (w, h) = (width as usize, height as usize);
    let dots = if packed {
        let row = w.div_ceil(8);
        let body = bytes.get(at + 1..).and_then(|rest| rest.get(..row * h)).ok_or("the PBM ends before its last row")?;
        unpacked(body, row, w)
    } else {
        plain_dots(bytes.get(at..).unwrap_or_default(), w * h)?
    };
    Ok(Mask::new(width, height, dots))
}

/// The dots of packed rows, eight a byte, the left one highest.
fn unpacked(body: &[u8], row: usize, w: usize) -> Vec<u8> {
    let mut dots = Vec::with_capacity(body.len() * 8);
    for packed in body.chunks_exact(row) {
        let end = dots.len() + w;
        for &b in packed {
            dots.extend_from_slice(&[b >> 7, b >> 6 & 1, b >> 5 & 1, b >> 4 & 1, b >> 3 & 1, b >> 2 & 1, b >> 1 & 1, b & 1]);
        }
        dots.truncate(end);
    }
    dots
}

fn head_number(bytes: &[u8], at: &mut usize) -> Result<u32, String> {
    let wrong = || "the PBM's head is not two numbers".to_owned();
    while let Some(&b) = bytes.get(*at) {
        if b == b'#' {
            *at += bytes[*at..].iter().position(|&b| b == b'\n').ok_or_else(wrong)?;
        } else if !b.is_ascii_whitespace() {
            break;
        }
        *at += 1;
    }
    let digits = bytes[*at..].iter().take_while(|b| b.is_ascii_digit()).count();
    let text = std::str::from_utf8(&bytes[*at..*at + digits]).map_err(|_| wrong())?;
    *at += digits;
    match bytes.get(*at) {
        Some(b) if b.is_ascii_whitespace() => text.parse().map_err(|_| wrong()),
        _ => Err(wrong()),
    }
}

fn plain_dots(bytes: &[u8], n: usize) -> Result<Vec<u8>, String> {
    let mut dots = Vec::with_capacity(n);
    let mut comment = false;
    for &b in bytes {
        match b {
            b'\n' => comment = false,
            _ if comment => {}
            b'#' => comment = true,
            b'0' | b'1' if dots.len() < n => dots.push(b - b'0'),
            _ if b.is_ascii_whitespace() => {}
            _ if dots.len() == n => break,
            _ => return Err("a dot of the PBM is neither 0 nor 1".into()),
        }
    }
    if dots.len() == n { Ok(dots) } else { Err("the PBM ends before its last row".into()) }
}

/// A PNG: ink where a dot, on white, is darker than half.
fn png(bytes: &[u8]) -> Result<Mask, String> {
    let mut decoder = png::Decoder::new(bytes);
    decoder.set_transformations(png::Transformations::normalize_to_color8());
    let mut reader = decoder.read_info().map_err(|wrong| wrong.to_string())?;
    let (width, height) = (reader.info().width, reader.info().height);
    judged(width, height)?;
    let mut data = vec![0; reader.output_buffer_size()];
    let info = reader.next_frame(&mut data).map_err(|wrong| wrong.to_string())?;
    let samples = info.color_type.samples();
    let data = data.get(..info.buffer_size()).unwrap_or_default();
    let dots = data.chunks_exact(samples).map(|p| u8::from(gray(p) < HALF)).collect();
    Ok(Mask::new(width, height, dots))
}

/// How light a dot is, 0 to 255, on white.
fn gray(p: &[u8]) -> u32 {
    let weigh = |r: u8, g: u8, b: u8| (299 * u32::from(r) + 587 * u32::from(g) + 114 * u32::from(b)) / 1000;
    let on_white = |v: u32, a: u8| (v * u32::from(a) + 255 * (255 - u32::from(a))) / 255;
    match *p {
        [v] => u32::from(v),
        [v, a] => on_white(u32::from(v), a),
        [r, g, b] => weigh(r, g, b),
        [r, g, b, a] => on_white(weigh(r, g, b), a),
        _ => 255,
    }
}

#[cfg(test)]
mod tests {
    use super::*;

    #[test]
    fn both_pbms() {
        let plain = pbm(b"P1\n# a comment\n3 2\n1 0 1\n011").unwrap();
        assert_eq!(plain.dots(), [1, 0, 1, 0, 1, 1]);
        assert_eq!(pbm(b"P4 3 2\n\xA0\x60").unwrap(), plain);
        let wide = pbm(b"P4 9 1\n\x80\x80").unwrap();
        assert_eq!(wide.dots(), [1, 0, 0, 0, 0, 0, 0, 0, 1]);
    }

    #[test]
    fn wrong_pbms() {
        for bytes in [&b"P1"[..], b"P1 3", b"P1 3 2 1 0 1 0 1", b"P4 3 2\n\xA0", b"P4 0 2\n", b"P4 8193 1\n", b"P1 1 1 2", b"P4 99999999999 1\n", b"P1 # no end", b"P1 3x 2 000000"] {
            assert!(pbm(bytes).is_err(), "{bytes:?}");
        }
    }
}
