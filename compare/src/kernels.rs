//! The kernels against the original's det.rs; the exponential and the power in f64 against `exponential`,
//! which is det.rs but at two powers of two.

use crate::block_kernels;
use crate::engine::{compare, Cases, Count};
use crate::exponential;
use crate::harness::*;
use crate::random::{draw_at, unit};
use tono::det;

/// How many arguments of each kernel are tried where no number is given.
pub const COUNT: u64 = 100_000_000;

/// Arguments of the size that music has.
pub fn phase(i: u64) -> f64 {
    between(-1000.0, 1000.0, i)
}

pub fn decay(i: u64) -> f64 {
    between(-50.0, 5.0, i)
}

pub fn frequency(i: u64) -> f64 {
    1e5 * (1.0 - unit(1, i))
}

pub fn drive(i: u64) -> f64 {
    between(-10.0, 10.0, i)
}

/// A base and an exponent of a pitch: an octave or any ratio, semitones or any number.
pub fn pitch(i: u64) -> (f64, f64) {
    let base = match i % 4 {
        0 | 1 => 2.0,
        2 => frequency(i),
        _ => unit(1, i),
    };
    let exponent = match i % 3 {
        0 => ((draw_at(3, i) % 128) as f64 - 69.0) / 12.0,
        _ => between(-10.0, 10.0, i),
    };
    (base, exponent)
}

fn between(low: f64, high: f64, i: u64) -> f64 {
    low + (high - low) * unit(2, i)
}

/// Half of the cases over all bit patterns, half of them musical.
fn mixed<X>(
    count: u64,
    any: impl Fn(u64) -> X + Sync,
    musical: impl Fn(u64) -> X + Sync,
) -> Cases<impl Fn(u64) -> X + Sync> {
    Cases {
        count,
        case: move |i| {
            if i % 2 == 0 {
                any(i / 2)
            } else {
                musical(i / 2)
            }
        },
    }
}

fn any_f64(i: u64) -> f64 {
    f64::from_bits(draw_at(4, i))
}

fn any_f32(i: u64) -> f32 {
    f32::from_bits(draw_at(5, i) as u32)
}

/// A kernel of one argument and its f32 wrapper, the library's and the original's of each.
struct Kernel {
    name: &'static str,
    musical: fn(u64) -> f64,
    double: (extern "C" fn(f64) -> f64, fn(f64) -> f64),
    single: (extern "C" fn(f32) -> f32, fn(f32) -> f32),
}

const KERNELS: [Kernel; 5] = [
    Kernel {
        name: "sin",
        musical: phase,
        double: (h_sin, det::sin),
        single: (h_sinf, det::sinf),
    },
    Kernel {
        name: "cos",
        musical: phase,
        double: (h_cos, det::cos),
        single: (h_cosf, det::cosf),
    },
    Kernel {
        name: "exp",
        musical: decay,
        double: (h_exp, exponential::exp),
        single: (h_expf, det::expf),
    },
    Kernel {
        name: "ln",
        musical: frequency,
        double: (h_ln, det::ln),
        single: (h_lnf, det::lnf),
    },
    Kernel {
        name: "tanh",
        musical: drive,
        double: (h_tanh, det::tanh),
        single: (h_tanhf, det::tanhf),
    },
];

impl Kernel {
    fn compare(&self, count: u64) -> Count {
        let Kernel {
            name,
            musical,
            double,
            single,
        } = *self;
        let wide = mixed(count, any_f64, musical);
        let narrow = mixed(count, any_f32, move |i| musical(i) as f32);
        compare(name, &wide, |x| double.0(x), double.1)
            + compare(&format!("{name}f"), &narrow, |x| single.0(x), single.1)
    }
}

/// The power, of two arguments.
fn compare_powers(count: u64) -> Count {
    let any = |i| (any_f64(2 * i), any_f64(2 * i + 1));
    let any_narrow = |i| (any_f32(2 * i), any_f32(2 * i + 1));
    let narrow_pitch = |i| (pitch(i).0 as f32, pitch(i).1 as f32);
    let wide = mixed(count, any, pitch);
    let narrow = mixed(count, any_narrow, narrow_pitch);
    compare(
        "powf",
        &wide,
        |(x, y)| h_powf(x, y),
        |(x, y)| exponential::powf(x, y),
    ) + compare(
        "powff",
        &narrow,
        |(x, y)| h_powff(x, y),
        |(x, y)| det::powff(x, y),
    )
}

/// The direct call of the exponential where it is its own, and around its cutoffs; and the wrapper there.
fn compare_ends(count: u64) -> Count {
    let case = |i| exponential::ends(i, draw_at(7, i));
    let wide = Cases { count, case };
    let narrow = Cases {
        count,
        case: |i| case(i) as f32,
    };
    compare("tono_exp ends", &wide, |x| tono_exp(x), exponential::exp)
        + compare("expf ends", &narrow, |x| h_expf(x), det::expf)
        + compare(
            "exp ends, narrowed",
            &wide,
            |x| h_narrow(tono_exp(x)),
            |x| det::exp(x) as f32,
        )
}

/// Compares every kernel on `count` arguments.
pub fn run(count: u64) -> Count {
    let one: Count = KERNELS.iter().map(|kernel| kernel.compare(count)).sum();
    (one + compare_powers(count) + compare_ends(count)).printed()
}

/// One f32 pattern in `scale` through a wrapper.
fn every(name: &str, scale: u64, ours: extern "C" fn(f32) -> f32, theirs: fn(f32) -> f32) -> Count {
    let cases = Cases {
        count: (1u64 << 32).div_ceil(scale),
        case: |i| f32::from_bits((i * scale) as u32),
    };
    compare(name, &cases, |x| ours(x), theirs)
}

/// The same as `run`, and one in `scale` of the 2^32 patterns of sinf and of expf, of expf as voices call it for one
/// value, and of the kernels over blocks.
pub fn run_all(count: u64, scale: u64) -> Count {
    let every = every("sinf all", scale, h_sinf, det::sinf)
        + every("expf all", scale, h_expf, det::expf)
        + every("expf falling", scale, h_expf_falling, det::expf)
        + block_kernels::run(scale);
    (run(count) + every).printed()
}
