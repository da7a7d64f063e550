//! The ink account of document 01 ("Added by us"): a plain machine that is fed with the calls alone, what each is handed and the lengths
//! that it is lent. It tells each call's number, and for an accepted one the answer, the output and all that is written, by the
//! original's own layout of the mask that it holds. It never sees a store or a plane.

use original::pixel::layout::{compare_sorted, Layout, LayoutParams};
use original::{level_mask, segment_mask};

use super::calls::{Asked, Call, Leaf, Lengths, Told};
use super::rules::{self, dots, View};
use crate::parts::segments::Answers;

pub enum Account {
    Nothing,
    Levelled(Levelled),
    Both(Levelled, Answers),
}

/// An accepted levelling: its arguments, the original's levelling of the mask, and the applied slope.
pub struct Levelled {
    pub leaf: Leaf,
    pub layout: Layout,
    pub slope: f64,
}

impl Levelled {
    pub fn new(leaf: &Leaf) -> Self {
        let (width, height) = (leaf.width as usize, leaf.height as usize);
        Levelled {
            layout: level_mask(leaf.mask.clone(), width, height, leaf.skew, leaf.slope, &leaf.sheet),
            slope: rules::applied(leaf, leaf.slope),
            leaf: leaf.clone(),
        }
    }

    /// The original's results with a sheet of its own for segmenting; `shear_min_deg` acts in levelling alone (DECISIONS 9).
    pub fn answers(&self, sheet: &LayoutParams) -> Answers {
        let leaf = &self.leaf;
        let mut p = sheet.clone();
        p.shear_min_deg = leaf.sheet.shear_min_deg;
        let (width, height) = (leaf.width as usize, leaf.height as usize);
        let layout = segment_mask(&leaf.mask, width, height, leaf.skew, leaf.slope, &p).expect("accepted");
        let (w, h) = (self.layout.width, self.layout.height);
        let (components, measured, kinds) = compare_sorted(self.layout.ink.clone(), w, h, &p);
        Answers {
            layout,
            components,
            measured,
            kinds,
        }
    }

    /// 9 for the store.
    fn store_short(&self, lent: &Lengths) -> bool {
        lent.store < rules::store_words(&self.layout, self.leaf.capacity)
    }
}

impl Account {
    /// What it holds of a levelling.
    pub fn levelled(&self) -> Option<&Levelled> {
        match self {
            Account::Nothing => None,
            Account::Levelled(levelled) | Account::Both(levelled, _) => Some(levelled),
        }
    }

    /// Takes a call in, and tells what comes of it.
    pub fn tell(&mut self, call: &Call) -> Told {
        let lent = &call.lent;
        match &call.asked {
            Asked::Level(leaf) => self.level(leaf, lent),
            Asked::Segment(sheet) => self.segment(sheet, lent),
            Asked::Clear if lent.store < 1 => Told::refused(9),
            Asked::Clear => {
                *self = Account::Nothing;
                Told::written(vec![super::calls::Write::Store(0, vec![0])])
            }
            Asked::Point(_) | Asked::Rect(_) | Asked::Gray(_) | Asked::Frame => self.level_reading(&call.asked, lent),
            _ => self.result_reading(&call.asked, lent),
        }
    }

    /// 1 to 7; 9 by the frame that the applied slope gives; 17 while not empty.
    fn level(&mut self, leaf: &Leaf, lent: &Lengths) -> Told {
        if let Some(number) = rules::leaf_number(leaf) {
            return Told::refused(number);
        }
        let new = Levelled::new(leaf);
        if new.store_short(lent) || lent.ink < dots(&new.layout) {
            return Told::refused(9);
        }
        if self.levelled().is_some() {
            return Told::refused(17);
        }
        let ink = new.layout.ink.clone();
        let writes = rules::level_writes(&new.layout, new.slope, leaf.capacity, ink);
        *self = Account::Levelled(new);
        Told::written(writes)
    }

    /// 6; 9 for a store under 64 words; 18 while empty; 9 for the other lengths; 20; 21.
    fn segment(&mut self, sheet: &LayoutParams, lent: &Lengths) -> Told {
        if sheet.validate().is_err() {
            return Told::refused(6);
        }
        if lent.store < rules::HEADER {
            return Told::refused(9);
        }
        let Some(held) = self.levelled() else {
            return Told::refused(18);
        };
        let (size, capacity) = (dots(&held.layout), held.leaf.capacity);
        let scratch = rules::scratch_of(&held.layout, capacity);
        if held.store_short(lent) || lent.ink < size || lent.kinds < size || lent.scratch < scratch {
            return Told::refused(9);
        }
        let answers = held.answers(sheet);
        let number = answers.number(capacity as usize);
        let mut told = Told::refused(number);
        told.scratch = Some(scratch);
        if number == 0 {
            told.writes = rules::segment_writes(&held.layout, capacity, &answers);
            *self = match std::mem::replace(self, Account::Nothing) {
                Account::Levelled(held) | Account::Both(held, _) => Account::Both(held, answers),
                Account::Nothing => unreachable!("something is held"),
            };
        }
        told
    }

    /// 9 for a store under 64 words; 18 while empty; 9 for the other lengths; 8.
    fn level_reading(&self, asked: &Asked, lent: &Lengths) -> Told {
        if lent.store < rules::HEADER {
            return Told::refused(9);
        }
        let Some(held) = self.levelled() else {
            return Told::refused(18);
        };
        let page = held.layout.page_width * held.layout.page_height;
        let other_size = matches!(asked, Asked::Gray(gray) if gray.len() != page);
        if held.store_short(lent) || other_size || lent.out < rules::fixed_output(asked, &held.layout) {
            return Told::refused(9);
        }
        if rules::is_bad(asked, &held.layout) {
            return Told::refused(8);
        }
        rules::level_answer(asked, &held.layout, held.slope)
    }

    /// 9 for a store under 64 words; 19 while not segmented; 9 for the other lengths; 8; 9 for an output shorter than what is read.
    fn result_reading(&self, asked: &Asked, lent: &Lengths) -> Told {
        if lent.store < rules::HEADER {
            return Told::refused(9);
        }
        let Account::Both(held, answers) = self else {
            return Told::refused(19);
        };
        let size = dots(&held.layout);
        let fixed = rules::fixed_output(asked, &held.layout);
        if held.store_short(lent) || lent.ink < size || lent.kinds < size || lent.out < fixed {
            return Told::refused(9);
        }
        let lists = answers.lists(held.layout.width, held.leaf.capacity as usize);
        let view = View {
            figures: answers.figures(),
            lists: lists.map(|(_, words)| words),
            layout: &answers.layout,
            kinds: &answers.kinds,
        };
        rules::result_answer(asked, &held.layout, &view, lent.out)
    }
}
