//! The original's f32 kernels against the platform's libm, whose f64 answer is narrowed once: where
//! det.rs and a libm part.

use crate::engine::{compare, Cases};
use tono::det;

/// The pattern of 1,000.
const THOUSAND: u64 = 0x447a_0000;

/// Numbers from 0 to 1,000 in size, of either sign, by the number of a case.
fn small(i: u64) -> f32 {
    f32::from_bits((i / 2) as u32 | ((i % 2) as u32) << 31)
}

fn kernel(name: &str, scale: u64, ours: fn(f32) -> f32, libm: fn(f64) -> f64) {
    let musical = Cases {
        count: (2 * (THOUSAND + 1)).div_ceil(scale),
        case: |i| small(i * scale),
    };
    let every = Cases {
        count: (1u64 << 32).div_ceil(scale),
        case: |i| f32::from_bits((i * scale) as u32),
    };
    println!("{name}, arguments up to 1,000 in size:");
    compare(name, &musical, ours, |x| libm(x as f64) as f32);
    println!("{name}, every argument:");
    compare(name, &every, ours, |x| libm(x as f64) as f32);
}

/// Prints how many arguments differ, of one in `scale`. "library" in a line is det.rs, "Rust" the
/// libm.
pub fn run(scale: u64) {
    kernel("sinf", scale, det::sinf, f64::sin);
    kernel("cosf", scale, det::cosf, f64::cos);
    kernel("expf", scale, det::expf, f64::exp);
    kernel("lnf", scale, det::lnf, f64::ln);
    kernel("tanhf", scale, det::tanhf, f64::tanh);
}
