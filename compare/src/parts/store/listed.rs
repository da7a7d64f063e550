//! Histories for the list that the gate replays: scripts of calls on one store, with what the ink account tells of each call and of all
//! that is left after the last. What the words of a call mean is in `crates/scripts/specs/rules/Scripts.antt`.

use original::pixel::layout::LayoutParams;

use super::account::{Account, Levelled};
use super::calls::{Asked, Call, Leaf, Lengths, Memory, Told};
use super::histories::{crowded_leaf, next};
use super::judge::LISTS;
use super::making::{any_reading, good_leaf, lend, Room};
use super::rules;
use crate::list::{answer, hash, hash_bytes, packed, List};
use crate::pages::Kind;
use crate::parts::segments::MOST_LINES;
use crate::parts::validate::{plain, sheet};
use crate::random::Random;

/// The kind of its cases: the head's eleven lengths, the script, its floats, its dots; then the log, six hashes and the integers.
const KIND: u8 = 0x0D;

const HISTORIES: u32 = 150;
const LEAVES: u32 = 20;

/// The words of a call.
const CALL_WORDS: usize = 21;

/// What `crates/replay` has room for: calls, floats, bytes, and the words, bytes or numbers of store, planes, scratch and outputs.
const MOST_CALLS: usize = 40;
const MOST_FLOATS: usize = 1024;
const BYTES: usize = 65_536;
const MOST: [usize; 8] = [172_032, 20_480, 20_480, 150_016, 16_384, 20_480, 32, 64];

/// What stands in all of it at first; the state word alone is 0.
const OLD_WORD: u32 = 0xA5A5_A5A5;
const OLD_BYTE: u8 = 0x5A;
const OLD_INTEGER: i32 = 7;
const OLD_NUMBER: f64 = 0.5;

/// The byte so far behind the dots that are spelled: the first is 2, and all there are occur.
fn byte_behind(i: usize) -> u8 {
    (i * 73 + i / 16 * 29 + 2) as u8
}

/// What the calls of a script name: floats, and dots before bytes of a fixed pattern.
struct Named {
    floats: Vec<u64>,
    bytes: Vec<u8>,
    dots: usize,
}

impl Named {
    /// The dots of every mask that has no other byte, each mask once; those of the last word are filled up.
    fn new(calls: &[Call]) -> Self {
        let mut bytes: Vec<u8> = Vec::new();
        for call in calls {
            match &call.asked {
                Asked::Level(leaf) if leaf.mask.iter().all(|&byte| byte < 2) => {
                    if place(&bytes, &leaf.mask).is_none() {
                        bytes.extend(&leaf.mask);
                    }
                }
                _ => {}
            }
        }
        bytes.resize(bytes.len().next_multiple_of(32), 0);
        let dots = bytes.len();
        bytes.extend((0..BYTES.saturating_sub(dots)).map(byte_behind));
        Named {
            floats: Vec::new(),
            bytes,
            dots,
        }
    }

    /// Where these floats stand one after the other; they are added where they do not yet.
    fn floats_at(&mut self, floats: &[f64]) -> u32 {
        let bits: Vec<u64> = floats.iter().map(|x| x.to_bits()).collect();
        let at = place(&self.floats, &bits).unwrap_or(self.floats.len());
        if at == self.floats.len() {
            self.floats.extend(bits);
        }
        at as u32
    }

    /// Where the bytes of a mask or a gray plane begin. Those of a gray plane lie in the pattern, and so does the end of a mask with any byte
    /// but 0 and 1; both become what stands there.
    fn bytes_at(&self, asked: &mut Asked) -> u32 {
        let (at, taken) = match asked {
            Asked::Level(leaf) => match place(&self.bytes[..self.dots], &leaf.mask) {
                Some(at) => return at as u32,
                None => ((self.dots + 1).saturating_sub(leaf.mask.len()), &mut leaf.mask),
            },
            Asked::Gray(gray) => (self.dots + gray.len() % 7, gray),
            _ => return 0,
        };
        let end = at + taken.len();
        taken.copy_from_slice(&self.bytes[at..end]);
        at as u32
    }
}

/// Where a part stands in a whole, if it does.
fn place<T: PartialEq>(whole: &[T], part: &[T]) -> Option<usize> {
    (0..(whole.len() + 1).saturating_sub(part.len())).find(|&at| whole[at..].starts_with(part))
}

/// The sheet's fifteen floats, in the order of its fields.
fn sheet_floats(p: &LayoutParams) -> [f64; 15] {
    [
        p.glyph_max_extent_frac,
        p.xheight_fallback_px,
        p.rule_min_len_xh,
        p.rule_max_thick_xh,
        p.rule_run_xh,
        p.graphic_min_xh,
        p.smear_xh,
        p.line_min_height_xh,
        p.line_max_height_xh,
        p.block_min_overlap,
        p.block_gap_margin_lines,
        p.block_max_gap_lines,
        p.column_gap_xh,
        p.column_cover_frac,
        p.shear_min_deg,
    ]
}

/// What is called, as a script has it.
fn op(asked: &Asked) -> u32 {
    match asked {
        Asked::Clear => 0,
        Asked::Level(_) => 1,
        Asked::Segment(_) => 2,
        Asked::Point(_) => 3,
        Asked::Rect(_) => 4,
        Asked::Gray(_) => 5,
        Asked::Frame => 6,
        Asked::Figures => 7,
        Asked::Summary => 8,
        Asked::TwentyLines => 9,
        Asked::CountDots(..) => 10,
        Asked::Dots(..) => 11,
        Asked::List(which) => 12 + *which as u32,
        Asked::PrintedSheet => 18,
    }
}

/// The words of a call. Its mask or gray plane becomes what stands at the bytes that it names.
fn words(call: &mut Call, named: &mut Named) -> [u32; CALL_WORDS] {
    let mut words = [0; CALL_WORDS];
    let lent = call.lent;
    words[0] = op(&call.asked);
    let lengths = [lent.store, lent.ink, lent.kinds, lent.scratch, lent.out];
    words[1..6].copy_from_slice(&lengths.map(|length| length as u32));
    words[14] = named.bytes_at(&mut call.asked);
    let sheet = match &call.asked {
        Asked::Level(leaf) => {
            words[6..9].copy_from_slice(&[leaf.width, leaf.height, leaf.capacity]);
            words[15] = leaf.mask.len() as u32;
            words[16] = named.floats_at(&[leaf.skew, leaf.slope]);
            Some(&leaf.sheet)
        }
        Asked::Segment(sheet) => Some(sheet),
        _ => None,
    };
    if let Some(p) = sheet {
        let at = named.floats_at(&sheet_floats(p));
        words[17..].copy_from_slice(&[at, p.glyph_min_area, p.xheight_min_area, p.line_min_glyphs]);
    }
    match &call.asked {
        Asked::Point(point) => words[10..12].copy_from_slice(point),
        Asked::Rect(corners) => words[10..14].copy_from_slice(corners),
        Asked::CountDots(kind, corners) | Asked::Dots(kind, corners) => {
            words[9] = *kind;
            words[10..14].copy_from_slice(corners);
        }
        Asked::Gray(gray) => words[15] = gray.len() as u32,
        _ => {}
    }
    words
}

/// Store, planes and outputs, as the account tells that they are left.
struct Left {
    memory: Memory,
    words: Vec<u32>,
    gray: Vec<u8>,
    integers: Vec<i32>,
    numbers: Vec<f64>,
}

impl Left {
    /// Of these lengths: store, planes, scratch, which is not told of, and outputs.
    fn new(lengths: [usize; 8]) -> Self {
        let [store, ink, kinds, _, words, gray, integers, numbers] = lengths;
        let mut memory = Memory {
            store: vec![OLD_WORD; store],
            ink: vec![OLD_BYTE; ink],
            kinds: vec![OLD_BYTE; kinds],
        };
        memory.store[0] = 0;
        Left {
            memory,
            words: vec![OLD_WORD; words],
            gray: vec![OLD_BYTE; gray],
            integers: vec![OLD_INTEGER; integers],
            numbers: vec![OLD_NUMBER; numbers],
        }
    }

    fn apply(&mut self, asked: &Asked, told: &Told) {
        self.memory.apply(&told.writes);
        for (i, &number) in told.filled.iter().enumerate() {
            match output(asked) {
                1 => self.gray[i] = number as u8,
                2 => self.integers[i] = number as i32,
                3 => self.numbers[i] = f64::from_bits(number),
                _ => self.words[i] = number as u32,
            }
        }
    }

    /// The hashes of all but the integers, and those, a word each.
    fn told(&self) -> Vec<u32> {
        let halves = |word: u64| [(word >> 32) as u32, word as u32];
        let numbers: Vec<u32> = self.numbers.iter().flat_map(|&x| halves(answer(x))).collect();
        let hashes = [
            hash(&self.memory.store),
            hash_bytes(&self.memory.ink),
            hash_bytes(&self.memory.kinds),
            hash(&self.words),
            hash_bytes(&self.gray),
            hash(&numbers),
        ];
        let integers = self.integers.iter().flat_map(|&x| halves(i64::from(x) as u64));
        hashes.iter().map(|&hash| hash as u32).chain(integers).collect()
    }
}

/// Which output a reading fills: 0 words, 1 bytes, 2 integers, 3 numbers.
fn output(asked: &Asked) -> usize {
    match asked {
        Asked::Gray(_) | Asked::PrintedSheet => 1,
        Asked::Point(_) | Asked::Rect(_) => 2,
        Asked::Summary => 3,
        _ => 0,
    }
}

/// Nothing is lent that the call does not take, which keeps the list short.
fn trim(call: &mut Call) {
    let lent = &mut call.lent;
    lent.scratch = lent.scratch.min(MOST[3]);
    match call.asked {
        Asked::Level(_) => (lent.kinds, lent.scratch, lent.out) = (0, 0, 0),
        Asked::Segment(_) => lent.out = 0,
        Asked::TwentyLines | Asked::CountDots(..) => (lent.scratch, lent.out) = (0, 0),
        Asked::Clear => (lent.ink, lent.kinds, lent.scratch, lent.out) = (0, 0, 0, 0),
        _ => lent.scratch = 0,
    }
}

/// The memory of a history: as much as its calls are lent at most, the store's room, and a little more of each output.
fn lengths(room: &Room, calls: &[Call]) -> [usize; 8] {
    let mut lengths = [room.store, room.plane, room.plane, 0, 3, 3, 3, 3];
    for call in calls {
        lengths[3] = lengths[3].max(call.lent.scratch);
        let out = 4 + output(&call.asked);
        lengths[out] = lengths[out].max(call.lent.out);
    }
    lengths
}

/// Writes a history down, where there is room for it; whether there is.
fn case(list: &mut List, room: &Room, mut calls: Vec<Call>) -> bool {
    let lengths = lengths(room, &calls);
    let mut named = Named::new(&calls);
    let script: Vec<u32> = calls.iter_mut().flat_map(|call| words(call, &mut named)).collect();
    let fits = lengths.iter().zip(&MOST).all(|(length, most)| length <= most);
    if !fits || calls.len() > MOST_CALLS || named.floats.len() > MOST_FLOATS || named.bytes.len() > BYTES {
        return false;
    }
    let (mut account, mut left) = (Account::Nothing, Left::new(lengths));
    let mut log = Vec::new();
    for call in &calls {
        let told = account.tell(call);
        left.apply(&call.asked, &told);
        log.extend([told.number, told.value]);
    }
    let mut numbers = vec![script.len() as u32, named.floats.len() as u32, named.dots as u32];
    numbers.extend(lengths.map(|length| length as u32));
    numbers.extend(script);
    numbers.extend(named.floats.iter().flat_map(|&bits| [(bits >> 32) as u32, bits as u32]));
    let dots = packed(&named.bytes[..named.dots]);
    let halves = dots.iter().flat_map(|&word| [(word >> 32) as u32, word as u32]);
    numbers.extend(halves.take(named.dots / 32));
    numbers.extend(log);
    numbers.extend(left.told());
    list.numbers(KIND, &numbers);
    true
}

/// The float without the low half of its bits: its digits are fewer.
fn short(x: f64) -> f64 {
    f64::from_bits(x.to_bits() >> 32 << 32)
}

/// The sheet with such floats.
fn short_sheet(p: &LayoutParams) -> LayoutParams {
    LayoutParams {
        glyph_max_extent_frac: short(p.glyph_max_extent_frac),
        xheight_fallback_px: short(p.xheight_fallback_px),
        rule_min_len_xh: short(p.rule_min_len_xh),
        rule_max_thick_xh: short(p.rule_max_thick_xh),
        rule_run_xh: short(p.rule_run_xh),
        graphic_min_xh: short(p.graphic_min_xh),
        smear_xh: short(p.smear_xh),
        line_min_height_xh: short(p.line_min_height_xh),
        line_max_height_xh: short(p.line_max_height_xh),
        block_min_overlap: short(p.block_min_overlap),
        block_gap_margin_lines: short(p.block_gap_margin_lines),
        block_max_gap_lines: short(p.block_max_gap_lines),
        column_gap_xh: short(p.column_gap_xh),
        column_cover_frac: short(p.column_cover_frac),
        shear_min_deg: short(p.shear_min_deg),
        ..p.clone()
    }
}

/// What is asked, with a sheet that was there before, more often than not, or of short floats: both keep the list short.
fn shortened(random: &mut Random, sheets: &mut Vec<LayoutParams>, asked: &mut Asked) {
    if let Asked::Level(Leaf { sheet, .. }) | Asked::Segment(sheet) = asked {
        if sheets.len() < 2 || random.below(4) == 0 {
            sheets.push(short_sheet(sheet));
        }
        *sheet = sheets[random.below(sheets.len() as u64) as usize].clone();
    }
    if let Asked::Level(leaf) = asked {
        leaf.slope = if random.below(4) == 0 { leaf.slope } else { short(leaf.slope) };
        leaf.skew = short(leaf.skew);
    }
}

/// Makes the calls up.
fn made(random: &mut Random, room: &Room, count: u64) -> Vec<Call> {
    let (mut account, mut calls, mut sheets) = (Account::Nothing, Vec::new(), Vec::new());
    for _ in 0..count {
        let mut asked = next(random, room, &account);
        shortened(random, &mut sheets, &mut asked);
        let mut call = lend(random, room, &mut account, asked);
        trim(&mut call);
        account.tell(&call);
        calls.push(call);
    }
    calls
}

/// The call with enough of all that it takes.
fn full(room: &Room, account: &mut Account, asked: Asked) -> Call {
    let lent = Lengths {
        store: room.store,
        ink: room.plane,
        kinds: room.plane,
        scratch: MOST[3],
        out: usize::MAX,
    };
    let mut call = Call { asked, lent };
    call.lent.out = match call.asked {
        Asked::Level(_) | Asked::Segment(_) | Asked::Clear => 0,
        _ => account.tell(&call).filled.len(),
    };
    trim(&mut call);
    call
}

/// Calls one after the other, each with enough.
fn all_full(room: &Room, all: Vec<Asked>) -> Vec<Call> {
    let mut account = Account::Nothing;
    let one = |asked: Asked| {
        let call = full(room, &mut account, asked);
        account.tell(&call);
        call
    };
    all.into_iter().map(one).collect()
}

/// A leaf of text with a sheet by which a block has lines one below the other.
fn text_leaf(random: &mut Random, room: &Room) -> Leaf {
    loop {
        let mut leaf = good_leaf(random, room);
        let (width, height) = (60 + random.below(31) as usize, 45 + random.below(20) as usize);
        (leaf.width, leaf.height, leaf.capacity) = (width as u32, height as u32, room.capacity);
        leaf.mask = Kind::Text.page(width, height, random);
        leaf.sheet = short_sheet(&leaf.sheet);
        leaf.slope = random.pick(&[0.0, 0.02, -0.02, 0.05, -0.05]);
        if rules::leaf_number(&leaf).is_some() {
            continue;
        }
        let answers = Levelled::new(&leaf).answers(&leaf.sheet);
        let pitched = answers.layout.blocks.iter().any(|block| block.lines.len() > 1);
        if pitched && answers.number(leaf.capacity as usize) == 0 {
            return leaf;
        }
    }
}

/// A leaf levelled, segmented and read in every way, in any order; then cleared and read again.
fn whole_reading(list: &mut List, random: &mut Random) {
    let room = Room {
        plane: 16_384,
        ..Room::new(90, 120)
    };
    let leaf = text_leaf(random, &room);
    let frame = rules::frame(leaf.width as usize, leaf.height as usize, 0.0, rules::applied(&leaf, leaf.slope));
    let mut all = vec![
        Asked::Frame,
        Asked::Figures,
        Asked::Summary,
        Asked::TwentyLines,
        Asked::PrintedSheet,
    ];
    all.extend(LISTS.map(Asked::List));
    all.extend((0..8).map(|_| any_reading(random, &frame)));
    for i in 0..all.len() {
        let j = random.below(all.len() as u64) as usize;
        all.swap(i, j);
    }
    let sheet = leaf.sheet.clone();
    all.splice(0..0, [Asked::Level(leaf), Asked::Segment(sheet)]);
    all.extend([Asked::Clear, Asked::Summary]);
    let calls = all_full(&room, all);
    assert!(case(list, &room, calls), "there is room for a leaf");
}

/// A page with as many lines as a page may have, and one with more.
fn crowded(list: &mut List, random: &mut Random) {
    for count in [MOST_LINES, MOST_LINES + 1] {
        let mut leaf = crowded_leaf(random, count);
        (leaf.skew, leaf.slope, leaf.capacity) = (0.0, 0.0, 4100);
        let room = Room {
            side: 130,
            capacity: 4100,
            store: rules::HEADER + 600 + 40 * 4100,
            plane: 16_640,
        };
        let mut p = sheet(&plain());
        p.smear_xh = 0.0;
        let all = [Asked::Level(leaf), Asked::Segment(p), Asked::Figures, Asked::TwentyLines];
        let calls = all_full(&room, all.to_vec());
        assert!(case(list, &room, calls), "there is room for a crowded page");
    }
}

pub fn list(list: &mut List) {
    let mut random = Random::new();
    let mut written = 0;
    while written < HISTORIES {
        let room = if written % 16 == 15 {
            Room {
                plane: 16_384,
                ..Room::new(90, 60)
            }
        } else {
            Room::new(random.pick(&[3, 6, 12, 24, 24, 40]), random.pick(&[2, 6, 20, 60]))
        };
        let most = if written % 4 == 0 { 26 } else { 10 };
        let count = 5 + random.below(most);
        let calls = made(&mut random, &room, count);
        if case(list, &room, calls) {
            written += 1;
        }
    }
    for _ in 0..LEAVES {
        whole_reading(list, &mut random);
    }
    crowded(list, &mut random);
}
