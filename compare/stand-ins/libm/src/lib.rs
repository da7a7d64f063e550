//! A stand-in for the crate `libm`: `sin(x) / cos(x)` is the slope that [`set_slope`] was given last on this thread, to
//! the bit. The other functions are there so that `math.rs` compiles, and nothing that is compared calls them.

use std::cell::Cell;

thread_local! {
    static SLOPE: Cell<f64> = const { Cell::new(0.0) };
}

pub fn set_slope(slope: f64) {
    SLOPE.with(|s| s.set(slope));
}

pub fn sin(_: f64) -> f64 {
    SLOPE.with(Cell::get)
}

pub fn cos(_: f64) -> f64 {
    1.0
}

pub fn exp(x: f64) -> f64 {
    x.exp()
}

pub fn log(x: f64) -> f64 {
    x.ln()
}

pub fn pow(base: f64, exponent: f64) -> f64 {
    base.powf(exponent)
}

pub fn atan2(y: f64, x: f64) -> f64 {
    y.atan2(x)
}
