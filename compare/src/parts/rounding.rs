//! `round`, the casts after it, and `round_output`, on some 14 million different patterns of bits.

use std::hint::black_box;

use original::math;

use super::Part;
use crate::bench::Bench;
use crate::list::{answer, List};
use crate::ours;
use crate::random::Random;
use crate::tally::{shown, Tally};

pub const PART: Part = Part {
    name: "rounding",
    compare,
    bench,
    list,
};

const MANTISSA: u64 = (1 << 52) - 1;
const SIGN: u64 = 1 << 63;
const QUIET: u64 = 1 << 51;
const INFINITY: u64 = 0x7FF << 52;

/// Where one of the functions changes its way: the ends of the casts' ranges, a half, and where halves and then odd
/// numbers end.
const ENDS: [f64; 15] = [
    0.5,
    1.0,
    1.5,
    2.5,
    2147483648.0,
    2147483647.5,
    2147483647.0,
    4294967296.0,
    4294967295.5,
    4294967295.0,
    2251799813685248.0,
    4503599627370496.0,
    9007199254740992.0,
    9223372036854775808.0,
    18446744073709551616.0,
];

fn compare(tally: &mut Tally) {
    let mut random = Random::new();
    let mut each = |bits: u64| one(tally, f64::from_bits(bits));
    exponents(&mut random, &mut each);
    halves(&mut random, &mut each);
    powers(&mut each);
    ends(&mut each);
    nans(&mut random, &mut each);
    for _ in 0..3_000_000 {
        each(random.next());
    }
    outputs(tally, &mut random);
}

/// All six functions on one number.
fn one(tally: &mut Tally, x: f64) {
    tally.float("round", x.round(), ours::round(x), || shown(x));
    tally.equal("round_to_u32", x.round() as u32, ours::round_to_u32(x), || shown(x));
    tally.equal("round_to_usize", x.round() as usize, ours::round_to_usize(x), || {
        shown(x)
    });
    tally.equal("round_to_i32", x.round() as i32, ours::round_to_i32(x), || shown(x));
    tally.equal("round_to_i64", x.round() as i64, ours::round_to_i64(x), || shown(x));
    output(tally, x);
}

fn output(tally: &mut Tally, x: f64) {
    tally.float("round_output", math::round_output(x), ours::round_output(x), || {
        shown(x)
    });
}

/// Every exponent and sign with a spread of mantissas: no digit, one, all below one, all above one, and random ones. The
/// lowest exponent has the zeros and subnormals, the highest the infinities and NaNs.
fn exponents(random: &mut Random, each: &mut impl FnMut(u64)) {
    for head in 0..4096u64 {
        let mut at = |mantissa: u64| each(head << 52 | mantissa & MANTISSA);
        at(0);
        for k in 0..52 {
            let digit = 1u64 << k;
            for mantissa in [digit, digit - 1, digit + 1, !(digit - 1), MANTISSA - digit] {
                at(mantissa);
            }
        }
        for _ in 0..1000 {
            at(random.next());
        }
    }
}

/// Whole numbers and halves with both neighbours and both signs: the small ones all, the others at random up to 2^53.
fn halves(random: &mut Random, each: &mut impl FnMut(u64)) {
    let mut around = |k: u64| {
        for x in [k as f64, k as f64 + 0.5] {
            near(x, 1, each);
        }
    };
    for k in 0..200_000 {
        around(k);
    }
    for _ in 0..400_000 {
        let digits = random.below(54);
        around(random.next() & ((1 << digits) - 1));
    }
}

/// Every power of two with 16 neighbours a side.
fn powers(each: &mut impl FnMut(u64)) {
    for exponent in 1..2047u64 {
        near(f64::from_bits(exponent << 52), 16, each);
    }
    for k in 0..52 {
        near(f64::from_bits(1 << k), 16, each);
    }
}

/// The ends, with a thousand neighbours a side, and by quarters around each.
fn ends(each: &mut impl FnMut(u64)) {
    for end in ENDS {
        near(end, 1000, each);
        for quarter in -4000..4000 {
            near(end + f64::from(quarter) * 0.25, 1, each);
        }
    }
}

/// NaNs of every kind: quiet and signalling, of both signs; and the infinities.
fn nans(random: &mut Random, each: &mut impl FnMut(u64)) {
    for _ in 0..50_000 {
        let payload = random.next() & (QUIET - 1);
        for sign in [0, SIGN] {
            each(sign | INFINITY | QUIET | payload);
            each(sign | INFINITY | payload.max(1));
        }
    }
    for sign in [0, SIGN] {
        for bits in [
            INFINITY,
            INFINITY - 1,
            INFINITY | 1,
            INFINITY | QUIET,
            INFINITY | MANTISSA,
            0,
            1,
            MANTISSA,
        ] {
            each(sign | bits);
        }
    }
}

/// x, and `count` neighbours a side, each with both signs.
fn near(x: f64, count: u64, each: &mut impl FnMut(u64)) {
    let bits = x.to_bits() & !SIGN;
    for b in bits.saturating_sub(count)..=(bits + count).min(INFINITY) {
        each(b);
        each(b | SIGN);
    }
}

/// Numbers that are for `round_output`: halves of the sixth decimal with their neighbours, decimals, and those around which
/// the product overflows.
fn outputs(tally: &mut Tally, random: &mut Random) {
    let mut each = |bits: u64| output(tally, f64::from_bits(bits));
    for k in 0..100_000u64 {
        near((k as f64 + 0.5) / 1e6, 2, &mut each);
        near(k as f64 / 1e6, 2, &mut each);
    }
    for _ in 0..300_000 {
        let digits = random.below(54);
        let k = (random.next() & ((1 << digits) - 1)) as f64;
        near((k + 0.5) / 1e6, 1, &mut each);
        near(random.fraction() * k, 0, &mut each);
    }
    near(f64::MAX / 1e6, 5000, &mut each);
    near(5e-7, 5000, &mut each);
    near(f64::MIN_POSITIVE / 1e6, 100, &mut each);
}

fn bench(bench: &mut Bench) {
    let mut random = Random::new();
    let pages: [(&str, Vec<f64>); 5] = [
        // as levelling calls it: the drifts of the columns of a page, in their order
        ("drifts", (0..COUNT).map(|c| f64::from(c) * -0.0123).collect()),
        // both signs in no order, which the branches on the sign do not foresee
        (
            "mixed",
            (0..COUNT).map(|_| (random.fraction() - 0.5) * 20_000.0).collect(),
        ),
        (
            "halves",
            (0..COUNT).map(|_| random.below(20_000) as f64 - 9_999.5).collect(),
        ),
        // below a half
        ("small", (0..COUNT).map(|_| random.fraction() - 0.5).collect()),
        ("patterns", (0..COUNT).map(|_| random.pattern()).collect()),
    ];
    for (page, input) in &pages {
        bench.stage("round", page, || calls(input, rust_round), || calls(input, ours::round));
        bench.stage(
            "round_to_i32",
            page,
            || calls(input, rust_round_to_i32),
            || calls(input, ours::round_to_i32),
        );
        bench.stage(
            "round_output",
            page,
            || calls(input, rust_round_output),
            || calls(input, ours::round_output),
        );
    }
}

/// How many numbers a page of the benchmark has.
const COUNT: u32 = 20_000;

// Both sides are timed by the call: ours is a call of the static library, which no compiler sees into, and the Rust is a
// function that is not inlined either.

#[inline(never)]
fn rust_round(x: f64) -> f64 {
    x.round()
}

#[inline(never)]
fn rust_round_to_i32(x: f64) -> i32 {
    x.round() as i32
}

#[inline(never)]
fn rust_round_output(x: f64) -> f64 {
    math::round_output(x)
}

#[inline(always)]
fn calls<T>(input: &[f64], f: impl Fn(f64) -> T) {
    for &x in black_box(input) {
        black_box(f(x));
    }
}

fn list(list: &mut List) {
    let mut inputs: Vec<u64> = Vec::new();
    let mut each = |bits: u64| inputs.push(bits);
    for k in 0..6 {
        near(f64::from(k) + 0.5, 1, &mut each);
    }
    for end in ENDS {
        near(end, 1, &mut each);
    }
    for x in [0.0, 0.3, 3.7, 5e-7, 1e300, f64::MAX, f64::MIN_POSITIVE, f64::MAX / 1e6] {
        near(x, 0, &mut each);
    }
    for bits in [
        1,
        MANTISSA,
        INFINITY,
        INFINITY | 1,
        INFINITY | QUIET,
        INFINITY | MANTISSA,
    ] {
        each(bits);
        each(bits | SIGN);
    }
    let mut random = Random::new();
    for _ in 0..60 {
        each(random.next());
        each(((random.fraction() - 0.5) * 1e4).to_bits());
    }
    inputs.sort_unstable();
    inputs.dedup();
    for bits in inputs {
        let x = f64::from_bits(bits);
        list.case(0x01, &[bits, answer(x.round())]);
        list.case(0x02, &[bits, u64::from(x.round() as u32)]);
        list.case(0x03, &[bits, x.round() as usize as u64]);
        list.case(0x04, &[bits, i64::from(x.round() as i32) as u64]);
        list.case(0x05, &[bits, x.round() as i64 as u64]);
        list.case(0x06, &[bits, answer(math::round_output(x))]);
    }
}
