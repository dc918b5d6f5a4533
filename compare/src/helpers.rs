//! The float helpers against Rust's own operations.

use crate::cases::{f32_pair, f64_case, f64_pair};
use crate::engine::{compare, Cases, Count};
use crate::harness::*;

const F32_PATTERNS: u64 = 1 << 32;
const F64_CASES: u64 = 1_000_000_000;
const F64_PAIRS: u64 = 100_000_000;
const F32_PAIRS: u64 = 1_000_000_000;

/// Compares every function on one in `scale` of the cases.
pub fn run(scale: u64) -> Count {
    let single = Cases {
        count: F32_PATTERNS.div_ceil(scale),
        case: |i| f32::from_bits((i * scale) as u32),
    };
    let double = Cases {
        count: F64_CASES.div_ceil(scale),
        case: f64_case,
    };
    let pairs = Cases {
        count: F64_PAIRS.div_ceil(scale),
        case: f64_pair,
    };
    let remainders = Cases {
        count: F32_PAIRS.div_ceil(scale),
        case: f32_pair,
    };
    let count = compare("floor", &single, |x| h_floor(x), f32::floor)
        + compare("trunc", &single, |x| h_trunc(x), f32::trunc)
        + compare("round", &single, |x| h_round(x), f32::round)
        + compare("fract", &single, |x| h_fract(x), f32::fract)
        + compare("sqrt", &single, |x| h_sqrt(x), f32::sqrt)
        + compare("abs", &single, |x| h_abs(x), f32::abs)
        + compare("usize", &single, |x| h_usize(x), |x| x as usize)
        + compare("i32", &single, |x| h_i32(x), |x| x as i32)
        + compare("signum", &single, |x| h_signum(x), f32::signum)
        + compare("rem", &remainders, |(x, y)| h_rem(x, y), |(x, y)| x % y)
        + compare("widen", &single, |x| h_widen(x), |x| x as f64)
        + compare("narrow", &double, |x| h_narrow(x), |x| x as f32)
        + compare("floor64", &double, |x| h_floor64(x), f64::floor)
        + compare("trunc64", &double, |x| h_trunc64(x), f64::trunc)
        + compare("round64", &double, |x| h_round64(x), f64::round)
        + compare("i64", &double, |x| h_i64(x), |x| x as i64)
        + compare("usize64", &double, |x| h_usize64(x), |x| x as usize)
        + compare("max64", &pairs, |(a, b)| h_max64(a, b), max);
    count.printed()
}

/// By 01's rule: "max(a, b) is a if a > b, else b".
fn max((a, b): (f64, f64)) -> f64 {
    if a > b {
        a
    } else {
        b
    }
}
