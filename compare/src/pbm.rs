//! Masks from PBM files, plain (P1) and raw (P4), so that scans can be timed.

use std::path::Path;

/// A mask, a byte a dot, 0 blank and 1 ink, and its width.
pub struct Scan {
    pub mask: Vec<u8>,
    pub width: usize,
}

/// The mask of a PBM file, or what is wrong with it.
pub fn read(path: &Path) -> Result<Scan, String> {
    let bytes = std::fs::read(path).map_err(|error| format!("{}: {error}", path.display()))?;
    scan(&bytes).ok_or_else(|| format!("{}: no PBM file of at most 8,192 x 8,192 dots", path.display()))
}

fn scan(bytes: &[u8]) -> Option<Scan> {
    let (raw, rest) = match bytes.get(..2)? {
        b"P1" => (false, &bytes[2..]),
        b"P4" => (true, &bytes[2..]),
        _ => return None,
    };
    let (width, rest) = number(rest)?;
    let (height, rest) = number(rest)?;
    if !(1..=8192).contains(&width) || !(1..=8192).contains(&height) {
        return None;
    }
    let mask = if raw {
        packed(rest.get(1..)?, width, height)?
    } else {
        let dots: Vec<u8> = rest.iter().filter(|b| matches!(b, b'0' | b'1')).map(|b| b - b'0').collect();
        (dots.len() == width * height).then_some(dots)?
    };
    Some(Scan { mask, width })
}

/// The next number, behind blanks and comments, and what follows it.
fn number(mut rest: &[u8]) -> Option<(usize, &[u8])> {
    loop {
        match rest.first()? {
            b'#' => rest = &rest[rest.iter().position(|b| *b == b'\n')?..],
            b if b.is_ascii_whitespace() => rest = &rest[1..],
            _ => break,
        }
    }
    let end = rest.iter().position(|b| !b.is_ascii_digit())?;
    let digits = std::str::from_utf8(&rest[..end]).ok()?;
    Some((digits.parse().ok()?, &rest[end..]))
}

/// Rows of whole bytes, eight dots each, the left one highest.
fn packed(bytes: &[u8], width: usize, height: usize) -> Option<Vec<u8>> {
    let stride = width.div_ceil(8);
    let bytes = bytes.get(..stride * height)?;
    let dot = |i: usize| bytes[i / width * stride + i % width / 8] >> (7 - i % width % 8) & 1;
    Some((0..width * height).map(dot).collect())
}

#[cfg(test)]
mod tests {
    use super::*;

    #[test]
    fn plain_and_raw_are_one() {
        let plain = scan(b"P1\n# a comment\n9 2\n1 0 0 0 0 0 0 0 1\n010000010\n").expect("plain");
        let raw = scan(b"P4 9 2\n\x80\x80\x41\x00").expect("raw");
        assert_eq!((plain.width, plain.mask.clone()), (raw.width, raw.mask));
        assert_eq!(plain.mask, [1, 0, 0, 0, 0, 0, 0, 0, 1, 0, 1, 0, 0, 0, 0, 0, 1, 0]);
    }

    #[test]
    fn cut_off_files_are_refused() {
        assert!(scan(b"P4 9 2\n\x80\x80\x41").is_none());
        assert!(scan(b"P5 9 2 255\n").is_none());
        assert!(scan(b"P1 2 2\n1 0 1\n").is_none());
    }
}
