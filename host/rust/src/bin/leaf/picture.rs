//! The levelled leaf as a picture: each kind of ink in its colour, boxes in theirs. Boxes are drawn on blank dots alone, so that no dot of ink is hidden.
use novlizeb::{Leaf, Rect};
use std::error::Error;
use std::io::Write;

/// Blank, the five kinds by number, then lines, blocks, columns.
pub const COLOURS: [[u8; 3]; 9] =
    [[255, 255, 255], [230, 120, 0], [0, 90, 200], [140, 40, 160], [30, 30, 30], [210, 30, 40], [60, 170, 80], [90, 150, 230], [250, 225, 160]];

const LINE: u8 = 6;
const BLOCK: u8 = 7;
const COLUMN: u8 = 8;

struct Canvas {
    dots: Vec<u8>,
    width: usize,
    height: usize,
}

impl Canvas {
    fn put(&mut self, x: i64, y: i64, colour: u8) {
        if let (Ok(x), Ok(y)) = (usize::try_from(x), usize::try_from(y)) {
            if x < self.width && y < self.height {
                if let Some(dot) = self.dots.get_mut(y * self.width + x).filter(|d| **d == 0) {
                    *dot = colour;
                }
            }
        }
    }

    /// The border `away` dots outside a box.
    fn frame(&mut self, r: Rect, away: i64, colour: u8) {
        let (x0, y0, x1, y1) = (i64::from(r.x0) - away, i64::from(r.y0) - away, i64::from(r.x1) + away, i64::from(r.y1) + away);
        for x in x0..=x1 {
            self.put(x, y0, colour);
            self.put(x, y1, colour);
        }
        for y in y0..=y1 {
            self.put(x0, y, colour);
            self.put(x1, y, colour);
        }
    }
}

/// Writes it as a PNG.
pub fn write(leaf: &Leaf, out: &mut dyn Write) -> Result<(), Box<dyn Error>> {
    let frame = leaf.frame()?;
    let mut canvas = Canvas { dots: leaf.kinds().to_vec(), width: frame.width as usize, height: frame.height as usize };
    for line in leaf.lines()? {
        canvas.frame(line.bbox, 1, LINE);
    }
    for block in leaf.blocks()? {
        canvas.frame(block.bbox, 3, BLOCK);
        canvas.frame(block.bbox, 4, BLOCK);
    }
    for column in leaf.columns()? {
        for y in 0..i64::from(frame.height) {
            canvas.put(i64::from(column.first), y, COLUMN);
            canvas.put(i64::from(column.last), y, COLUMN);
        }
    }
    png(out, frame.width, frame.height, &COLOURS.concat(), &[], &canvas.dots)
}

/// A PNG with a palette, a byte a dot.
pub fn png(out: &mut dyn Write, width: u32, height: u32, palette: &[u8], opacity: &[u8], dots: &[u8]) -> Result<(), Box<dyn Error>> {
    let mut encoder = png::Encoder::new(out, width, height);
    encoder.set_color(png::ColorType::Indexed);
    encoder.set_depth(png::BitDepth::Eight);
    encoder.set_palette(palette.to_vec());
    if !opacity.is_empty() {
        encoder.set_trns(opacity.to_vec());
    }
    encoder.set_compression(png::Compression::Fast);
    let mut writer = encoder.write_header()?;
    writer.write_image_data(dots)?;
    Ok(writer.finish()?)
}
