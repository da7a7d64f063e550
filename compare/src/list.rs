//! The list of cases with the Rust's answers that the gate replays (`crates/replay`).
//!
//! One case a line, in upper-case hexadecimal: two digits of kind, four of how many digits follow, those digits, a line feed. They are
//! numbers of 32 bits, each a digit that says how many digits it has, 0 to 8, and those digits without leading zeros. A word is two such
//! numbers, its high half first. The words are the inputs and after them the Rust's answers; `crates/replay` knows for each kind which is
//! which. A text is its bytes, four a number. A float is its bits, and a NaN answer is one pattern that stands for every NaN. A signed
//! number is its two's complement at 64 bits.

use std::fmt::Write;

use crate::parts::PARTS;
use crate::tally::Tally;

/// The pattern of a NaN answer.
const NAN: u64 = 0x7FF8_0000_0000_0000;

/// The most digits of a case, and the most numbers: what `crates/replay` has room for.
const MOST_DIGITS: usize = 65_535;
const MOST_NUMBERS: usize = 8192;

pub struct List {
    text: String,
}

impl List {
    /// A case of words.
    pub fn case(&mut self, kind: u8, words: &[u64]) {
        let halves: Vec<u32> = words
            .iter()
            .flat_map(|&word| [(word >> 32) as u32, word as u32])
            .collect();
        self.numbers(kind, &halves);
    }

    /// A case of numbers.
    pub fn numbers(&mut self, kind: u8, numbers: &[u32]) {
        let digits: String = numbers.iter().map(|&number| digits_of(number)).collect();
        assert!(
            digits.len() <= MOST_DIGITS && numbers.len() <= MOST_NUMBERS,
            "a case of kind {kind:02X} is too long"
        );
        writeln!(self.text, "{kind:02X}{:04X}{digits}", digits.len()).expect("a String takes all");
    }

    /// A case of texts: the length of each, and then their bytes.
    pub fn bytes(&mut self, kind: u8, texts: &[&[u8]]) {
        let lengths = texts.iter().map(|text| text.len() as u32);
        let bytes = texts.iter().flat_map(|text| packed_bytes(text));
        self.numbers(kind, &lengths.chain(bytes).collect::<Vec<u32>>());
    }
}

/// How many digits a number has, and those.
fn digits_of(number: u32) -> String {
    let digits = if number == 0 {
        String::new()
    } else {
        format!("{number:X}")
    };
    format!("{}{digits}", digits.len())
}

/// An answer's word: every NaN is the one pattern.
pub fn answer(x: f64) -> u64 {
    if x.is_nan() {
        NAN
    } else {
        x.to_bits()
    }
}

/// A mask as words, 64 dots a word, the first dot the highest digit; what is left of the last word is blank.
pub fn packed(mask: &[u8]) -> Vec<u64> {
    let word = |dots: &[u8]| {
        let bit = |(i, &v): (usize, &u8)| u64::from(v != 0) << (63 - i);
        dots.iter().enumerate().map(bit).sum()
    };
    mask.chunks(64).map(word).collect()
}

/// Bytes as numbers, four a number, the first the highest. Each is less by the byte of the digit 0, so that zeros have no digits; what is
/// left of the last number is 0.
fn packed_bytes(bytes: &[u8]) -> Vec<u32> {
    let byte = |four: &[u8], i: usize| four.get(i).map_or(0, |byte| u32::from(byte.wrapping_sub(b'0')));
    let number = |four: &[u8]| (0..4).fold(0, |n, i| n << 8 | byte(four, i));
    bytes.chunks(4).map(number).collect()
}

/// Many words as one: each is added to what came before times 16,777,619, and the remainder by 4,294,967,291 goes on.
pub fn hash(words: &[u32]) -> u64 {
    let step = |h: u64, &word: &u32| (h * 16_777_619 + u64::from(word)) % 4_294_967_291;
    words.iter().fold(1, step)
}

/// The same of bytes.
pub fn hash_bytes(bytes: &[u8]) -> u64 {
    hash(&bytes.iter().map(|&byte| u32::from(byte)).collect::<Vec<u32>>())
}

/// The whole list, of every part in turn.
pub fn whole() -> String {
    let mut list = List { text: String::new() };
    for part in PARTS {
        (part.list)(&mut list);
    }
    list.text
}

/// Holds the committed list to the one that the Rust gives now, line by line.
pub fn compare(tally: &mut Tally) {
    let path = concat!(env!("CARGO_MANIFEST_DIR"), "/../crates/replay/stdin");
    let kept = std::fs::read_to_string(path).unwrap_or_default();
    let now = whole();
    let most = now.lines().count().max(kept.lines().count());
    let (mut a, mut b) = (now.lines(), kept.lines());
    for number in 1..=most {
        tally.equal("line", a.next(), b.next(), || number.to_string());
    }
}
