//! Calls on a store: what each is handed, the lengths that it is lent, how it is made, and how its outcome is held to what was told
//! beforehand, in every word and byte of what it was lent and of what lies past that.

use original::pixel::layout::LayoutParams;

use super::counts::Counts;
use crate::host::{self, Held, Page, Which};
use crate::ours::Answer;
use crate::tally::Tally;

/// One store with its two planes: what a host keeps from call to call.
#[derive(Clone, Debug, PartialEq)]
pub struct Memory {
    pub store: Vec<u32>,
    pub ink: Vec<u8>,
    pub kinds: Vec<u8>,
}

/// What levelling is handed.
#[derive(Clone, Debug)]
pub struct Leaf {
    pub mask: Vec<u8>,
    pub width: u32,
    pub height: u32,
    pub skew: f64,
    pub slope: f64,
    pub sheet: LayoutParams,
    pub capacity: u32,
}

/// What a call asks. A box is x0, y0, x1, y1.
#[derive(Clone, Debug)]
pub enum Asked {
    Level(Leaf),
    Segment(LayoutParams),
    Clear,
    Point([u32; 2]),
    Rect([u32; 4]),
    Gray(Vec<u8>),
    Frame,
    Figures,
    Summary,
    List(Which),
    TwentyLines,
    CountDots(u32, [u32; 4]),
    Dots(u32, [u32; 4]),
    PrintedSheet,
}

/// How many words or bytes are lent: of the store and its planes a front part, scratch and the output for this call alone.
#[derive(Clone, Copy, Debug)]
pub struct Lengths {
    pub store: usize,
    pub ink: usize,
    pub kinds: usize,
    pub scratch: usize,
    pub out: usize,
}

#[derive(Clone, Debug)]
pub struct Call {
    pub asked: Asked,
    pub lent: Lengths,
}

/// What an accepted call writes into the store or over the front of a plane.
#[derive(Debug, PartialEq)]
pub enum Write {
    Store(usize, Vec<u32>),
    Ink(Vec<u8>),
    Kinds(Vec<u8>),
}

/// What a call answers and leaves. What is filled, the numbers over the front of the output, is kept as 64 bits each: a float's own, a
/// signed number's as a word.
#[derive(Debug, PartialEq)]
pub struct Told {
    pub number: u32,
    pub value: u32,
    pub filled: Vec<u64>,
    pub writes: Vec<Write>,
    /// From which word on scratch stays, where the call gets as far as using it.
    pub scratch: Option<usize>,
}

impl Told {
    /// Refused: the number, and zeros elsewhere.
    pub fn refused(number: u32) -> Self {
        Told {
            number,
            value: 0,
            filled: Vec::new(),
            writes: Vec::new(),
            scratch: None,
        }
    }

    /// Accepted, with this value and this output.
    pub fn answered(value: u32, filled: Vec<u64>) -> Self {
        Told {
            value,
            filled,
            ..Told::refused(0)
        }
    }

    /// Accepted, with these writes.
    pub fn written(writes: Vec<Write>) -> Self {
        Told {
            writes,
            ..Told::refused(0)
        }
    }
}

impl Memory {
    pub fn apply(&mut self, writes: &[Write]) {
        for write in writes {
            match write {
                Write::Store(at, words) => self.store[*at..at + words.len()].copy_from_slice(words),
                Write::Ink(bytes) => self.ink[..bytes.len()].copy_from_slice(bytes),
                Write::Kinds(bytes) => self.kinds[..bytes.len()].copy_from_slice(bytes),
            }
        }
    }

    /// The front parts that a call is lent.
    pub fn lent(&self, lent: &Lengths) -> Held<'_> {
        Held {
            store: &self.store[..lent.store],
            ink: &self.ink[..lent.ink],
            kinds: &self.kinds[..lent.kinds],
        }
    }
}

/// So much more than is lent stands behind each output and scratch, and may not change.
const BEHIND: usize = 5;

/// A pattern that differs from call to call.
fn pattern(seed: u64, i: usize) -> u32 {
    (seed as u32 ^ i as u32).wrapping_mul(0x9E37_79B1) | 0x8000_0001
}

fn words(seed: u64, length: usize) -> Vec<u32> {
    (0..length + BEHIND).map(|i| pattern(seed, i)).collect()
}

/// The output of a call, in the type that it takes.
enum Output {
    None,
    Words(Vec<u32>),
    Signed(Vec<i32>),
    Floats(Vec<f64>),
    Bytes(Vec<u8>),
}

impl Output {
    fn lend(call: &Call, seed: u64) -> Self {
        let words = words(seed, call.lent.out);
        match call.asked {
            Asked::Level(_) | Asked::Segment(_) | Asked::Clear => Output::None,
            Asked::TwentyLines | Asked::CountDots(..) => Output::None,
            Asked::Point(_) | Asked::Rect(_) => Output::Signed(words.iter().map(|&word| word as i32).collect()),
            Asked::Gray(_) | Asked::PrintedSheet => Output::Bytes(words.iter().map(|&word| (word >> 24) as u8).collect()),
            Asked::Summary => Output::Floats(words.iter().map(|&word| f64::from(word)).collect()),
            _ => Output::Words(words),
        }
    }

    fn numbers(&self) -> Vec<u64> {
        match self {
            Output::None => Vec::new(),
            Output::Words(words) => words.iter().map(|&word| u64::from(word)).collect(),
            Output::Signed(numbers) => numbers.iter().map(|&number| u64::from(number as u32)).collect(),
            Output::Floats(floats) => floats.iter().map(|float| float.to_bits()).collect(),
            Output::Bytes(bytes) => bytes.iter().map(|&byte| u64::from(byte)).collect(),
        }
    }
}

/// Makes the call.
fn made(call: &Call, memory: &mut Memory, scratch: &mut [u32], output: &mut Output) -> Answer {
    let plain = |number: u32| Answer { number, value: 0 };
    let (lent, length) = (call.lent, call.lent.out);
    let Memory { store, ink, kinds } = memory;
    let (store, ink, kinds) = (&mut store[..lent.store], &mut ink[..lent.ink], &mut kinds[..lent.kinds]);
    match (&call.asked, output) {
        (Asked::Level(leaf), _) => {
            let page = Page {
                mask: &leaf.mask,
                width: leaf.width,
                height: leaf.height,
                skew: leaf.skew,
                slope: leaf.slope,
            };
            plain(host::level(page, &leaf.sheet, leaf.capacity, store, ink))
        }
        (Asked::Segment(sheet), _) => plain(host::segment(sheet, store, ink, kinds, &mut scratch[..lent.scratch])),
        (Asked::Clear, _) => plain(host::clear(store)),
        (Asked::Point([x, y]), Output::Signed(out)) => plain(host::to_page(store, *x, *y, &mut out[..length])),
        (Asked::Rect(corners), Output::Signed(out)) => plain(host::rect_to_page(store, *corners, &mut out[..length])),
        (Asked::Gray(gray), Output::Bytes(out)) => plain(host::level_gray(store, gray, &mut out[..length])),
        (Asked::Frame, Output::Words(out)) => plain(host::read_frame(store, &mut out[..length])),
        (asked, output) => reading(asked, Held { store, ink, kinds }, output, length),
    }
}

/// Makes a reading of results.
fn reading(asked: &Asked, held: Held, output: &mut Output, length: usize) -> Answer {
    let plain = |number: u32| Answer { number, value: 0 };
    match (asked, output) {
        (Asked::Figures, Output::Words(out)) => plain(host::read_figures(held, &mut out[..length])),
        (Asked::Summary, Output::Floats(out)) => plain(host::read_summary(held, &mut out[..length])),
        (Asked::List(which), Output::Words(out)) => host::read_list(held, *which, &mut out[..length]),
        (Asked::TwentyLines, _) => host::twenty_line_measure(held),
        (Asked::CountDots(kind, corners), _) => host::count_dots(held, *kind, *corners),
        (Asked::Dots(kind, corners), Output::Words(out)) => host::read_dots(held, *kind, *corners, &mut out[..length]),
        (Asked::PrintedSheet, Output::Bytes(out)) => host::write_sheet(held, &mut out[..length]),
        _ => unreachable!("each reading has its own output"),
    }
}

/// The name of what a call asks, for the lines of differences.
fn name(asked: &Asked) -> String {
    let text = format!("{asked:?}");
    text.split(|c: char| !c.is_alphanumeric())
        .next()
        .unwrap_or("")
        .to_owned()
}

/// Makes the call and holds its answer, its output, its scratch, the store and both planes, from first to last, to what was told;
/// `expected` is the memory as it was, and is as it was told afterwards.
pub fn hold(
    tally: &mut Tally,
    counts: &mut Counts,
    call: &Call,
    told: &Told,
    [memory, expected]: [&mut Memory; 2],
    input: &dyn Fn() -> String,
) {
    counts.met(told.number);
    let seed = tally.cases;
    let mut output = Output::lend(call, seed);
    let mut filled = output.numbers();
    filled[..told.filled.len()].copy_from_slice(&told.filled);
    let is_segment = matches!(call.asked, Asked::Segment(_));
    let mut scratch = words(seed, if is_segment { call.lent.scratch } else { 0 });
    expected.apply(&told.writes);
    let answer = made(call, memory, &mut scratch, &mut output);
    let what = |part: &str| format!("{part} of {}", name(&call.asked));
    let input = || format!("{call:?}, {}", input());
    let (said, answer) = ((told.number, told.value), (answer.number, answer.value));
    tally.equal(&what("the answer"), said, answer, input);
    tally.equal(&what("the output"), &filled, &output.numbers(), input);
    tally.equal(&what("the store"), &expected.store, &memory.store, input);
    tally.equal(
        &what("the planes"),
        (&expected.ink, &expected.kinds),
        (&memory.ink, &memory.kinds),
        input,
    );
    if is_segment {
        let from = told.scratch.unwrap_or(call.lent.scratch);
        let written = (from..scratch.len()).find(|&i| scratch[i] != pattern(seed, i));
        tally.equal("scratch past its length", None, written, input);
    }
}
