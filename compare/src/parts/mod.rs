//! The parts of the comparison, in document 01's order.
//!
//! To add a part NAME: write `NAME.rs` in this folder with a `pub const PART: Part`, and add its line to `parts!` below.
//! Its functions of this project go into `../ours.rs`, and the private functions of the original that it needs into
//! `original/build.rs`.

use crate::bench::Bench;
use crate::list::List;
use crate::tally::Tally;

pub struct Part {
    pub name: &'static str,
    /// Compares every answer of the two sides.
    pub compare: fn(&mut Tally),
    /// Times its stages.
    pub bench: fn(&mut Bench),
    /// Its cases of the list that the gate replays; only the Rust's answers.
    pub list: fn(&mut List),
}

macro_rules! parts {
    ($($name:ident,)*) => {
        $(pub mod $name;)*
        pub const PARTS: &[Part] = &[$($name::PART),*];
    };
}

parts! {
    rounding,
    sums,
    validate,
    labelling,
    levelling,
    extents,
    rulings,
    kinds,
    segments,
    store,
    show,
}
