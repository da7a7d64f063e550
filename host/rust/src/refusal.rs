//! Why a call was turned back.
use std::error::Error;
use std::fmt;

/// Why a call was turned back; each case has the number that the library gives it.
#[derive(Debug, Clone, Copy, PartialEq, Eq, Hash)]
#[non_exhaustive]
pub enum Refusal {
    /// 1: a side of the page is outside its limit.
    Sides,
    /// 2: the mask has not width × height bytes.
    MaskLength,
    /// 3: a byte of the mask is above 1.
    MaskByte,
    /// 4: the skew is not finite or beyond 45 degrees.
    Skew,
    /// 5: the slope is not finite or beyond 1.
    Slope,
    /// 6: a parameter is not valid.
    Params,
    /// 7: the capacity is outside its limit.
    Capacity,
    /// 8: a point or box lies outside the frame.
    Outside,
    /// 9: memory is too short, or a gray plane is not of page size.
    TooShort,
    /// 16: a store holds what no call leaves.
    Spoiled,
    /// 17: a leaf is levelled while it is not empty.
    NotEmpty,
    /// 18: the leaf is empty.
    Empty,
    /// 19: the leaf is not segmented yet.
    NotSegmented,
    /// 20: more components than the capacity.
    Components,
    /// 21: more than 4,095 lines.
    Lines,
    /// A number that the library does not give.
    Unknown(u32),
}

impl Refusal {
    /// The refusal with this number; `None` for 0, which is no refusal.
    #[must_use]
    pub fn from_number(number: u32) -> Option<Self> {
        Some(match number {
            0 => return None,
            1 => Self::Sides,
            2 => Self::MaskLength,
            3 => Self::MaskByte,
            4 => Self::Skew,
            5 => Self::Slope,
            6 => Self::Params,
            7 => Self::Capacity,
            8 => Self::Outside,
            9 => Self::TooShort,
            16 => Self::Spoiled,
            17 => Self::NotEmpty,
            18 => Self::Empty,
            19 => Self::NotSegmented,
            20 => Self::Components,
            21 => Self::Lines,
            n => Self::Unknown(n),
        })
    }

    /// Its number.
    #[must_use]
    pub fn number(self) -> u32 {
        match self {
            Self::Sides => 1,
            Self::MaskLength => 2,
            Self::MaskByte => 3,
            Self::Skew => 4,
            Self::Slope => 5,
            Self::Params => 6,
            Self::Capacity => 7,
            Self::Outside => 8,
            Self::TooShort => 9,
            Self::Spoiled => 16,
            Self::NotEmpty => 17,
            Self::Empty => 18,
            Self::NotSegmented => 19,
            Self::Components => 20,
            Self::Lines => 21,
            Self::Unknown(n) => n,
        }
    }

    /// It in words.
    #[must_use]
    pub fn words(self) -> &'static str {
        match self {
            Self::Sides => "a side of the page is not from 1 to 8192",
            Self::MaskLength => "the mask has not width x height bytes",
            Self::MaskByte => "a byte of the mask is neither 0 nor 1",
            Self::Skew => "the skew is not a number from -45 to 45 degrees",
            Self::Slope => "the slope is not a number from -1 to 1",
            Self::Params => "a parameter of the sheet is not valid",
            Self::Capacity => "the capacity is not from 1 to 65535",
            Self::Outside => "a point or box lies outside the frame, or the kind is not from 1 to 5",
            Self::TooShort => "lent memory is too short, or the gray plane is not of page size",
            Self::Spoiled => "the store or a plane is spoiled: it holds what no call leaves",
            Self::NotEmpty => "the store is not empty: clear it before levelling",
            Self::Empty => "the store is empty: level a page first",
            Self::NotSegmented => "the store has no results: segment the page first",
            Self::Components => "the page has more components than the capacity",
            Self::Lines => "the page has more than 4095 lines",
            Self::Unknown(_) => "no refusal has this number",
        }
    }
}

impl fmt::Display for Refusal {
    fn fmt(&self, f: &mut fmt::Formatter<'_>) -> fmt::Result {
        write!(f, "refused with {}: {}", self.number(), self.words())
    }
}

impl Error for Refusal {}

#[cfg(test)]
mod tests {
    use super::*;

    #[test]
    fn numbers_go_both_ways() {
        for n in 1..40 {
            assert_eq!(Refusal::from_number(n).map(Refusal::number), Some(n));
        }
        assert_eq!(Refusal::from_number(0), None);
    }

    #[test]
    fn words_are_those_of_the_header() {
        let header = include_str!("../../../include/novlizeb.h");
        for n in (1..=9).chain(16..=21) {
            let words = Refusal::from_number(n).map_or("", Refusal::words);
            assert!(header.contains(&format!("return \"{words}\"")), "{n}: {words}");
        }
    }
}
