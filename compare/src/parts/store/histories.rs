//! Lists of calls on one store, each outcome held to what the ink account tells, and to what the judge of stores says of the words held.

use super::account::Account;
use super::calls::{hold, Asked, Call, Leaf, Memory};
use super::counts::Counts;
use super::judge;
use super::making::{any_leaf, any_reading, lend, odd_sheet, Room};
use super::rules;
use crate::parts::segments::{any_sheet, MOST_LINES};
use crate::parts::validate::{plain, sheet};
use crate::random::Random;
use crate::tally::Tally;

const HISTORIES: u32 = 40_000;
const CROWDED: u32 = 150;

/// A store with its account. What was called is kept, to be told where something differs.
pub struct History {
    pub room: Room,
    pub memory: Memory,
    expected: Memory,
    pub account: Account,
    past: Vec<Call>,
}

impl History {
    /// The state word is 0, all else anything.
    pub fn new(random: &mut Random, room: Room) -> Self {
        let zeros = random.below(4) == 0;
        let word = |random: &mut Random| if zeros { 0 } else { random.next() };
        let mut memory = Memory {
            store: (0..room.store).map(|_| word(random) as u32).collect(),
            ink: (0..room.plane).map(|_| word(random) as u8).collect(),
            kinds: (0..room.plane).map(|_| word(random) as u8).collect(),
        };
        memory.store[0] = 0;
        History {
            room,
            expected: memory.clone(),
            memory,
            account: Account::Nothing,
            past: Vec::new(),
        }
    }

    /// Makes a call. The judge, who sees the words, must say what the account tells.
    pub fn call(&mut self, tally: &mut Tally, counts: &mut Counts, call: Call) {
        let judged = judge::judged(&call, &self.memory);
        let told = self.account.tell(&call);
        let past = &self.past;
        let input = || format!("after {past:?}");
        tally.equal("the judge", &told, &judged, || format!("{call:?}, {}", input()));
        hold(
            tally,
            counts,
            &call,
            &told,
            [&mut self.memory, &mut self.expected],
            &input,
        );
        self.past.push(call);
    }

    /// The same, with random lengths of what is lent.
    pub fn ask(&mut self, tally: &mut Tally, counts: &mut Counts, random: &mut Random, asked: Asked) {
        let call = lend(random, &self.room, &mut self.account, asked);
        self.call(tally, counts, call);
    }
}

/// What is asked next: what the account holds makes some calls likelier.
pub fn next(random: &mut Random, room: &Room, account: &Account) -> Asked {
    let likely = match account {
        Account::Nothing => [60, 70, 76],
        Account::Levelled(_) => [8, 50, 55],
        Account::Both(..) => [5, 18, 24],
    };
    let frame = match account.levelled() {
        Some(held) => rules::frame(held.layout.page_width, held.layout.page_height, 0.0, held.slope),
        None => rules::frame(room.side, room.side, 0.0, 0.0),
    };
    let chance = random.below(100);
    if chance < likely[0] {
        Asked::Level(any_leaf(random, room))
    } else if chance < likely[1] {
        Asked::Segment(match random.below(8) {
            0 => odd_sheet(random),
            _ => any_sheet(random, frame.width, frame.height),
        })
    } else if chance < likely[2] {
        Asked::Clear
    } else {
        any_reading(random, &frame)
    }
}

/// A page with so many dots apart from each other, each a line with a plain sheet.
pub fn crowded_leaf(random: &mut Random, count: usize) -> Leaf {
    let (width, height) = (128usize, 130usize);
    let mut leaf = any_leaf(random, &Room::new(1, 1));
    leaf.mask = vec![0; width * height];
    for i in 0..count {
        leaf.mask[i / 64 * 2 * width + i % 64 * 2] = 1;
    }
    (leaf.width, leaf.height) = (width as u32, height as u32);
    leaf.sheet = sheet(&plain());
    leaf
}

/// Pages with more lines than a page may have, and just as many: capacities around that, sheets that keep each dot a line.
fn crowded(tally: &mut Tally, counts: &mut Counts, random: &mut Random) {
    for _ in 0..CROWDED {
        let count = random.pick(&[
            MOST_LINES,
            MOST_LINES + 1,
            MOST_LINES + 1,
            MOST_LINES + 2,
            MOST_LINES + 9,
        ]);
        let mut leaf = crowded_leaf(random, count);
        (leaf.skew, leaf.slope) = (1.0, random.pick(&[0.0, 0.0, 0.0105, -0.0105]));
        leaf.capacity = random.pick(&[count as u32 - 1, count as u32, count as u32 + 1, 4200, 4200]);
        let room = Room {
            side: 130,
            capacity: 4200,
            store: rules::HEADER + 1000 + 40 * 4200,
            plane: 20_000,
        };
        let mut history = History::new(random, room);
        history.ask(tally, counts, random, Asked::Level(leaf));
        for _ in 0..40 {
            let mut p = sheet(&plain());
            p.smear_xh = random.pick(&[0.0, 0.0, 0.0, 0.0, 0.0, 1.0]);
            p.block_max_gap_lines = random.fraction() * 3.0;
            p.column_cover_frac = random.fraction() * 0.9;
            let asked = match random.below(8) {
                0 => next(random, &history.room, &history.account),
                _ => Asked::Segment(p),
            };
            history.ask(tally, counts, random, asked);
        }
    }
}

pub fn compare(tally: &mut Tally, counts: &mut Counts, random: &mut Random) {
    for _ in 0..HISTORIES {
        let side = random.pick(&[3, 6, 12, 24, 24, 40]);
        let room = Room::new(side, random.pick(&[2, 6, 20, 60]));
        let mut history = History::new(random, room);
        for _ in 0..5 + random.below(36) {
            let asked = next(random, &history.room, &history.account);
            history.ask(tally, counts, random, asked);
        }
    }
    crowded(tally, counts, random);
}
