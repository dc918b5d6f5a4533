//! The f64 exponential that the library has: det.rs's, but at two powers of two. "The power of two at
//! −1023 becomes the true subnormal, and k = 1024 is done by 2^1023 and then by 2". And the power, which
//! calls it. Nothing here comes from the library.

use std::f64::consts::LOG2_E;
use tono::det;

pub const HIGHEST: f64 = 7.09782712893383e+02;
pub const LOWEST: f64 = -7.45133219101941e+02;

/// The k of det.rs, where it gets so far.
pub fn power_of(x: f64) -> Option<f64> {
    (x >= LOWEST && x <= HIGHEST).then(|| (x * LOG2_E).round())
}

pub fn exp(x: f64) -> f64 {
    match power_of(x) {
        Some(k) if k == -1023.0 => near(x, k) * f64::from_bits(1 << 51),
        Some(k) if k == 1024.0 => near(x, k) * f64::from_bits(2046 << 52) * 2.0,
        _ => det::exp(x),
    }
}

/// det.rs's lines between `round` and the last.
fn near(x: f64, k: f64) -> f64 {
    const LN2_HI: f64 = 6.93147180369123816490e-01;
    const LN2_LO: f64 = 1.90821492927058770002e-10;
    const P1: f64 = 1.66666666666666019037e-01;
    const P2: f64 = -2.77777777770155933842e-03;
    const P3: f64 = 6.61375632143793436117e-05;
    const P4: f64 = -1.65339022054652515390e-06;
    const P5: f64 = 4.13813679705723846039e-08;
    let r = (x - k * LN2_HI) - k * LN2_LO;
    let t = r * r;
    let c = r - t * (P1 + t * (P2 + t * (P3 + t * (P4 + t * P5))));
    1.0 - ((r * c) / (c - 2.0) - r)
}

/// det.rs's powf over that exponential.
pub fn powf(x: f64, y: f64) -> f64 {
    let own = y != 0.0 && x != 0.0 && !(x < 0.0);
    if own {
        exp(y * det::ln(x))
    } else {
        det::powf(x, y)
    }
}

/// Arguments about both cutoffs and about the borders of the two k: a quarter of them within 2^20 steps
/// of such a place, the others spread over the ranges where k is one of the two or next to it.
pub fn ends(i: u64, draw: u64) -> f64 {
    let borders = [
        HIGHEST,
        LOWEST,
        1023.5 / LOG2_E,
        1024.0 / LOG2_E,
        -1022.5 / LOG2_E,
        -1023.0 / LOG2_E,
        -1023.5 / LOG2_E,
        -1074.5 / LOG2_E,
    ];
    if i % 4 == 0 {
        let near = borders[(i / 4 % 8) as usize].to_bits();
        return f64::from_bits(near + draw % (1 << 21) - (1 << 20));
    }
    let unit = (draw >> 11) as f64 / (1u64 << 53) as f64;
    let (low, high) = [(709.0, 710.0), (-710.2, -708.0), (-746.0, -744.0)][(i % 4 - 1) as usize];
    low + (high - low) * unit
}
