//! `label_8` called by itself: every mask up to four by four, random masks of all small shapes, large ones of every kind;
//! labels, all records, what is to stay as it was, and every refusal at its limits.

use std::hint::black_box;

use original::pixel::components::{label_8, Labelling};

use super::Part;
use crate::bench::Bench;
use crate::lent::Words;
use crate::list::{hash, packed, List};
use crate::masks::{self, near, shown, LARGE_SHAPES, SIDES};
use crate::ours::{self, Answer};
use crate::pages::{Kind, KINDS};
use crate::random::Random;
use crate::tally::Tally;

pub const PART: Part = Part {
    name: "labelling",
    compare,
    bench,
    list,
};

/// Document 01's limit of pieces.
const MOST_PIECES: u32 = 65_535;

/// The words of a piece's record.
const RECORD: usize = 9;

/// The words of scratch for so many dots and pieces.
fn scratch_words(dots: usize, capacity: usize) -> usize {
    4 * dots + 16 * capacity + 64
}

/// A piece's nine words: area, box, the sums of x and of y, low word first.
fn records(rust: &Labelling) -> Vec<u32> {
    let mut words = Vec::with_capacity(RECORD * rust.components.len());
    for c in &rust.components {
        words.extend([c.area, c.x0, c.y0, c.x1, c.y1]);
        for sum in [c.sum_x, c.sum_y] {
            words.extend([sum as u32, (sum >> 32) as u32]);
        }
    }
    words
}

/// The memory that a call is lent.
struct Lent {
    labels: Words,
    components: Words,
    scratch: Words,
}

impl Lent {
    fn new() -> Self {
        Lent {
            labels: Words::new(),
            components: Words::new(),
            scratch: Words::new(),
        }
    }

    /// A call with so many words of each.
    fn call(&mut self, mask: &[u8], width: u32, height: u32, capacity: u32, lengths: [usize; 3]) -> Answer {
        let labels = self.labels.lend(lengths[0]);
        let components = self.components.lend(lengths[1]);
        let scratch = self.scratch.lend(lengths[2]);
        ours::label(mask, width, height, capacity, labels, components, scratch)
    }

    /// Where a call wrote that it was not to: past these lengths.
    fn written_past(&self, labels: usize, components: usize, scratch: usize) -> [Option<usize>; 3] {
        [
            self.labels.written_from(labels),
            self.components.written_from(components),
            self.scratch.written_from(scratch),
        ]
    }
}

/// A mask within the limits, labelled with this capacity and with `slack` words of each memory to spare.
fn one(tally: &mut Tally, lent: &mut Lent, rust: &Labelling, mask: &[u8], capacity: usize, slack: usize) {
    let (width, dots, count) = (rust.width, mask.len(), rust.components.len());
    let input = || format!("{}, capacity {capacity}", shown(mask, width));
    let scratch = scratch_words(dots, capacity);
    let lengths = [dots + slack, RECORD * capacity + slack, scratch + slack];
    let answer = lent.call(mask, width as u32, rust.height as u32, capacity as u32, lengths);
    let accepted = count <= capacity;
    let (number, value) = if accepted { (0, count as u32) } else { (20, 0) };
    tally.equal("the answer", Answer { number, value }, answer, input);
    let (kept_labels, kept_components) = if accepted { (dots, RECORD * count) } else { (0, 0) };
    let past = lent.written_past(kept_labels, kept_components, scratch);
    tally.equal("writing past", [None; 3], past, input);
    if accepted {
        tally.equal("labels", &rust.labels[..], &lent.labels.0[..dots], input);
        let ours = &lent.components.0[..kept_components];
        tally.equal("records", &records(rust)[..], ours, input);
    }
}

/// A mask with just its capacity, with one less, and with some more.
fn each_capacity(tally: &mut Tally, lent: &mut Lent, random: &mut Random, mask: &[u8], width: usize) {
    let rust = label_8(mask, width, mask.len() / width);
    let count = rust.components.len();
    let slack = random.below(4) as usize;
    one(tally, lent, &rust, mask, count.max(1), slack);
    if count > 1 {
        one(tally, lent, &rust, mask, count - 1, slack);
    }
    if random.below(8) == 0 {
        let more = random.below(20) as usize;
        one(tally, lent, &rust, mask, count + 1 + more, slack);
    }
}

/// Large masks of every kind, in shapes up to the longest sides.
fn large_masks(tally: &mut Tally, lent: &mut Lent, random: &mut Random) {
    for (width, height) in LARGE_SHAPES {
        for kind in KINDS {
            let mask = kind.page(width, height, random);
            let rust = label_8(&mask, width, height);
            one(tally, lent, &rust, &mask, MOST_PIECES as usize, 3);
        }
    }
}

/// The number by document 01's rules, of what a call is handed and the lengths that it is lent; 0 where it is accepted,
/// or refused for its pieces.
fn refusal(mask: usize, width: u32, height: u32, capacity: u32, lengths: [usize; 3]) -> u32 {
    if let Some(number) = masks::refusal(mask, width, height) {
        number
    } else if !(1..=MOST_PIECES).contains(&capacity) {
        7
    } else if lengths[0] < mask
        || lengths[1] < RECORD * capacity as usize
        || lengths[2] < scratch_words(mask, capacity as usize)
    {
        9
    } else {
        0
    }
}

/// A call that is refused by what it is handed or lent: the number, and nothing written but scratch.
fn refused(tally: &mut Tally, lent: &mut Lent, mask: &[u8], width: u32, height: u32, capacity: u32, lengths: [usize; 3]) {
    let number = refusal(mask.len(), width, height, capacity, lengths);
    if number == 0 {
        return;
    }
    let input = || {
        let length = mask.len();
        format!("{width} x {height}, a mask of {length}, capacity {capacity}, lent {lengths:?}")
    };
    let answer = lent.call(mask, width, height, capacity, lengths);
    tally.equal("the refusal", Answer { number, value: 0 }, answer, input);
    let past = lent.written_past(0, 0, usize::MAX);
    tally.equal("writing when refused", [None; 3], past, input);
}

/// Sides and dots at each limit and beside it, where the mask need not be there; each limit passed is 1, and else the mask's
/// length is wrong, 2.
fn refused_sides(tally: &mut Tally, lent: &mut Lent) {
    for width in SIDES {
        for height in SIDES {
            for capacity in [0, 1, MOST_PIECES, MOST_PIECES + 1, u32::MAX] {
                for mask in [&[][..], &[1][..], &[0, 1][..]] {
                    refused(tally, lent, mask, width, height, capacity, [0; 3]);
                    refused(tally, lent, mask, width, height, capacity, [5, 20, 100]);
                }
            }
        }
    }
}

/// Small masks with every length right, one short or one more, in every combination.
fn refused_lengths(tally: &mut Tally, lent: &mut Lent) {
    for (width, height) in [(1, 1), (1, 3), (4, 2), (5, 5)] {
        let dots = (width * height) as usize;
        for capacity in [0u32, 1, 2, 7, MOST_PIECES, MOST_PIECES + 1, u32::MAX] {
            let memory = capacity.min(MOST_PIECES + 1) as usize;
            for length in near(dots) {
                let mask = vec![1; length];
                for labels in near(dots) {
                    for components in near(RECORD * memory) {
                        for scratch in near(scratch_words(dots, memory)) {
                            let lengths = [labels, components, scratch];
                            refused(tally, lent, &mask, width, height, capacity, lengths);
                        }
                    }
                }
            }
        }
    }
}

fn compare(tally: &mut Tally) {
    let mut random = Random::new();
    let mut lent = Lent::new();
    let mut each = |random: &mut Random, mask: &[u8], width: usize| {
        each_capacity(tally, &mut lent, random, mask, width);
    };
    masks::every_small_mask(&mut random, &mut each);
    masks::random_masks(&mut random, &mut each);
    large_masks(tally, &mut lent, &mut random);
    refused_sides(tally, &mut lent);
    refused_lengths(tally, &mut lent);
}

/// The memory of one benchmark page, lent again in each turn.
struct Room {
    labels: Vec<u32>,
    components: Vec<u32>,
    scratch: Vec<u32>,
}

impl Room {
    fn new(dots: usize) -> Self {
        let most = MOST_PIECES as usize;
        Room {
            labels: vec![1; dots],
            components: vec![1; RECORD * most],
            scratch: vec![1; scratch_words(dots, most)],
        }
    }

    fn label(&mut self, mask: &[u8], side: usize) -> Answer {
        let (labels, components, scratch) = (&mut self.labels, &mut self.components, &mut self.scratch);
        let (mask, side) = (black_box(mask), side as u32);
        black_box(ours::label(mask, side, side, MOST_PIECES, labels, components, scratch))
    }
}

/// The largest side, of halves of `most`, of a square page of this kind that has no more pieces than a labelling may.
fn accepted(kind: Kind, most: usize) -> (usize, Vec<u8>) {
    let mut side = most;
    loop {
        let mask = kind.page(side, side, &mut Random::new());
        if label_8(&mask, side, side).components.len() <= MOST_PIECES as usize {
            return (side, mask);
        }
        side /= 2;
    }
}

/// Square pages of 4096 a side. A kind that has more than 65,535 pieces at that size is refused by document 01, so it is timed at
/// the half, or half of that, at which it is accepted; the line then says so, as `noise10-512`.
fn bench(bench: &mut Bench) {
    for kind in bench.kinds() {
        let (side, mask) = accepted(kind, 4096);
        let mut room = Room::new(side * side);
        assert!(room.label(&mask, side).number == 0, "{kind} is accepted");
        let page = if side == 4096 {
            kind.to_string()
        } else {
            format!("{kind}-{side}")
        };
        bench.stage(
            "label",
            &page,
            || {
                black_box(label_8(black_box(&mask), side, side));
            },
            || {
                room.label(&mask, side);
            },
        );
    }
}

/// The cost of a dot at 2^20, 2^24 and so on up to 2^`most` dots.
pub fn flat(bench: &mut Bench, most: u32) {
    for kind in [Kind::Solid, Kind::Blobs, Kind::Diagonal, Kind::Checkerboard] {
        for exponent in (20..=most).step_by(4) {
            let side = 1usize << (exponent / 2);
            let mask = kind.page(side, side, &mut Random::new());
            let mut room = Room::new(side * side);
            assert!(room.label(&mask, side).number == 0, "{kind} is accepted");
            bench.per_dot(
                "label",
                &format!("flat-{exponent} {kind}"),
                side * side,
                || {
                    black_box(label_8(black_box(&mask), side, side));
                },
                || {
                    room.label(&mask, side);
                },
            );
        }
    }
}

/// The kind of its cases: width, height, capacity, the mask; then the answer, the hashes of labels and of records.
const KIND: u8 = 0x09;

fn list(list: &mut List) {
    let mut random = Random::new();
    let mut case = |mask: &[u8], width: usize, height: usize, capacity: u32| {
        let mut words = vec![width as u64, height as u64, u64::from(capacity)];
        words.extend(packed(mask));
        let rust = label_8(mask, width, height);
        let number = match refusal(mask.len(), width as u32, height as u32, capacity, [usize::MAX; 3]) {
            0 if rust.components.len() > capacity as usize => 20,
            number => number,
        };
        if number == 0 {
            words.extend([rust.components.len() as u64, hash(&rust.labels), hash(&records(&rust))]);
        } else {
            words.extend([u64::from(number) << 32, 0, 0]);
        }
        list.case(KIND, &words);
    };
    for (mask, width) in [(&[1, 0, 0, 1][..], 2), (&[1, 0, 1, 1, 1, 1][..], 3), (&[0, 1, 1, 0][..], 2)] {
        case(mask, width, mask.len() / width, 1);
    }
    for kind in KINDS {
        for (width, height) in [(32, 32), (31, 33), (1, 40), (40, 1), (5, 4)] {
            case(&kind.page(width, height, &mut random), width, height, 64);
        }
    }
    for _ in 0..40 {
        let (width, height) = (1 + random.below(20) as usize, 1 + random.below(20) as usize);
        let kind = Kind::Noise(5 + random.below(90) as u8);
        let mask = kind.page(width, height, &mut random);
        let count = label_8(&mask, width, height).components.len() as u32;
        case(&mask, width, height, count.clamp(1, 64));
        case(&mask, width, height, count.saturating_sub(1).clamp(1, 64));
    }
    for capacity in [0, 65_536] {
        case(&[1], 1, 1, capacity);
    }
    case(&[], 0, 1, 1);
    case(&[], 1, 0, 1);
    for (width, height) in [(300, 1), (300, 3), (320, 4), (384, 6), (401, 9), (512, 3), (1030, 2)] {
        for _ in 0..4 {
            let mask = masks::crossing(width, height, &mut random);
            case(&mask, width, height, 64);
        }
    }
    for kind in [Kind::Text, Kind::Table, Kind::Blobs, Kind::Solid, Kind::Noise(50), Kind::Comb, Kind::Stripes, Kind::Dot] {
        case(&kind.page(340, 12, &mut random), 340, 12, 64);
    }
}
