//! Patterns to try the helpers on.

use crate::borders::REMAINDERS;
use crate::random::draw_at;

/// Patterns that are tried first, without their sign: zero, the least and the largest subnormal of
/// both formats, the least normal, the largest f32, the border past which narrowing overflows, the
/// largest f64, the infinity, and NaNs.
const BORDERS: [u64; 15] = [
    0x0000_0000_0000_0000,
    0x0000_0000_0000_0001,
    0x000f_ffff_ffff_ffff,
    0x0010_0000_0000_0000,
    0x3690_0000_0000_0000,
    0x36a0_0000_0000_0000,
    0x380f_ffff_c000_0000,
    0x3810_0000_0000_0000,
    0x47ef_ffff_e000_0000,
    0x47ef_ffff_efff_ffff,
    0x47ef_ffff_f000_0000,
    0x7fef_ffff_ffff_ffff,
    0x7ff0_0000_0000_0000,
    0x7ff0_0000_0000_0001,
    0x7ff8_0000_0000_0000,
];

/// Case number i: the borders with both signs, then eight kinds in turn.
pub fn f64_case(i: u64) -> f64 {
    let r = draw_at(1, i);
    let sign = r >> 63;
    let magnitude = match BORDERS.get((i / 2) as usize) {
        Some(pattern) => return f64::from_bits(pattern | (i << 63)),
        None => match i % 8 {
            0 => r & !(1 << 63),
            1 => halfway(r % 0x7f7f_ffff, r),
            2 => halfway(r % 0x80_0000, r),
            3 => near((r % 2047) << 52, r),
            4 => around_last_digits(r),
            5 => whole_or_half(r),
            6 => in_exponents(983, 1063, r),
            _ => in_exponents(860, 1160, r),
        },
    };
    f64::from_bits(magnitude | (sign << 63))
}

/// Case number i of two: the borders with both signs in every pair, then equal, opposite and neighbouring
/// numbers and any two in turn.
pub fn f64_pair(i: u64) -> (f64, f64) {
    let each = 2 * BORDERS.len() as u64;
    if i < each * each {
        return (f64_case(i / each), f64_case(i % each));
    }
    let (a, b) = (f64_case(2 * i), f64_case(2 * i + 1));
    match i % 8 {
        0 => (a, a),
        1 => (a, -a),
        2 => (a, f64::from_bits(a.to_bits().wrapping_add(1))),
        3 => (f64::from_bits(b.to_bits().wrapping_add(1)), b),
        _ => (a, b),
    }
}

/// Case number i of two f32: the borders with both signs in every pair, then seven kinds in turn.
pub fn f32_pair(i: u64) -> (f32, f32) {
    let each = 2 * REMAINDERS.len() as u64;
    if i < each * each {
        return (border(i / each), border(i % each));
    }
    let r = draw_at(6, i);
    let (x, y) = (r as u32, (r >> 32) as u32);
    let [a, b] = [x, y].map(f32::from_bits);
    let times = (draw_at(7, i) % 1_000_000) as f32;
    match i % 7 {
        // any two
        0 => (a, b),
        // near exponents
        1 => (a, f32::from_bits(y & 0x807f_ffff | x & 0x7f80_0000)),
        // about a multiple
        2 => (f32::from_bits((b * times).to_bits().wrapping_add(x % 3)), b),
        // by a subnormal
        3 => (a, f32::from_bits(y & 0x807f_ffff)),
        // of two subnormals
        4 => (
            f32::from_bits(x & 0x807f_ffff),
            f32::from_bits(y & 0x8000_ffff),
        ),
        // the drum kit's: a frame's time by 0.01
        5 => ((x % 1_000_000) as f32 / (8000 + y % 184_001) as f32, 0.01),
        // any by a whole number
        _ => (a, times),
    }
}

fn border(i: u64) -> f32 {
    f32::from_bits(REMAINDERS[(i / 2) as usize] | (i as u32) << 31)
}

/// The pattern, or that of the f64 just below or above.
fn near(pattern: u64, r: u64) -> u64 {
    match (r >> 40) % 3 {
        0 => pattern.saturating_sub(1),
        1 => pattern,
        _ => pattern + 1,
    }
}

/// At the middle between two neighbouring f32 values, the lower of which has this pattern.
fn halfway(pattern: u64, r: u64) -> u64 {
    let low = f32::from_bits(pattern as u32) as f64;
    let high = f32::from_bits(pattern as u32 + 1) as f64;
    near(((low + high) / 2.0).to_bits(), r)
}

/// About the powers of two from which on f32, f64 and the 64-bit integers have no more digits for
/// a fraction, or end.
fn around_last_digits(r: u64) -> u64 {
    const EXPONENTS: [u64; 11] = [22, 23, 24, 31, 32, 51, 52, 53, 62, 63, 64];
    let power = (1023 + EXPONENTS[(r % 11) as usize]) << 52;
    let away = (draw_at(2, r) as i64) >> (12 + (r >> 32) % 52);
    power.wrapping_add_signed(away)
}

/// A multiple of one half of any size below 2^52, or a neighbour of it.
fn whole_or_half(r: u64) -> u64 {
    let halves = draw_at(3, r) >> (11 + (r >> 32) % 53);
    near((halves as f64 / 2.0).to_bits(), r)
}

/// Any digits, with a biased exponent from `low` up to but not at `high`.
fn in_exponents(low: u64, high: u64, r: u64) -> u64 {
    ((low + (r >> 52) % (high - low)) << 52) | (r & 0xf_ffff_ffff_ffff)
}
