//! The replay files of crates/det_vectors: the kernels' borders and random arguments, with the
//! answers of the original, or of `exponential` for the f64 exponential and power. A line is a name and the arguments' patterns; its answer is appended
//! in the second file.

use crate::exponential;
use crate::kernels::{decay, drive, frequency, phase, pitch};
use crate::random::draw_at;
use crate::vectors::Replay;
use std::f64::consts::{FRAC_PI_4, LN_2, SQRT_2};
use std::io;
use tono::det;

const FOLDER: &str = concat!(env!("CARGO_MANIFEST_DIR"), "/../crates/det_vectors");
/// How many random arguments of each kernel: half of any pattern, half musical.
const RANDOM: u64 = 30;

impl Replay {
    /// A kernel in f64. An argument is written as it is, a NaN's pattern too.
    fn wide(&mut self, name: &str, arguments: &[f64], kernel: fn(f64) -> f64) {
        for x in arguments {
            let case = format!("{name} {:016x}", x.to_bits());
            self.push(case, double(kernel(*x)));
        }
    }

    /// Its f32 wrapper, on the same arguments narrowed, each pattern once.
    fn narrow(&mut self, name: &str, arguments: &[f64], wrapper: fn(f32) -> f32) {
        let mut patterns: Vec<u32> = arguments.iter().map(|x| (*x as f32).to_bits()).collect();
        patterns.sort();
        patterns.dedup();
        for pattern in patterns {
            let answer = wrapper(f32::from_bits(pattern));
            self.push(format!("{name} {pattern:08x}"), single(answer));
        }
    }

    /// The power in both formats.
    fn powers(&mut self, arguments: &[(f64, f64)]) {
        for (x, y) in arguments {
            let case = format!("powf {:016x} {:016x}", x.to_bits(), y.to_bits());
            self.push(case, double(exponential::powf(*x, *y)));
            let (x, y) = (*x as f32, *y as f32);
            let case = format!("powff {:08x} {:08x}", x.to_bits(), y.to_bits());
            self.push(case, single(det::powff(x, y)));
        }
    }
}

/// A pattern as the replay prints it, one for every NaN. The test is on the bits, so that no
/// optimisation of float operations can drop it.
fn single(x: f32) -> String {
    let bits = x.to_bits();
    let is_nan = bits & 0x7fff_ffff > 0x7f80_0000;
    format!("{:08x}", if is_nan { 0x7fc0_0000 } else { bits })
}

fn double(x: f64) -> String {
    let bits = x.to_bits();
    let is_nan = bits & 0x7fff_ffff_ffff_ffff > 0x7ff0_0000_0000_0000;
    format!("{:016x}", if is_nan { 0x7ff8_0000_0000_0000 } else { bits })
}

/// Values with either sign that every kernel is tried on: zero, subnormals and normals of both
/// formats, 1, the largest, infinity, NaN.
fn special() -> Vec<f64> {
    let patterns = [
        0,
        1,
        0x000f_ffff_ffff_ffff,
        0x0010_0000_0000_0000,
        0x36a0_0000_0000_0000,
        0x3810_0000_0000_0000,
        0x3ff0_0000_0000_0000,
        0x47ef_ffff_e000_0000,
        0x7fef_ffff_ffff_ffff,
        0x7ff0_0000_0000_0000,
        0x7ff8_0000_0000_0000,
    ];
    signed(patterns.map(f64::from_bits).to_vec())
}

fn signed(values: Vec<f64>) -> Vec<f64> {
    values.into_iter().flat_map(|x| [x, -x]).collect()
}

/// Each value with its neighbours in f64 and in f32.
fn around(values: Vec<f64>) -> Vec<f64> {
    values
        .into_iter()
        .flat_map(|x| {
            let near = x as f32;
            let wide = [x.next_down(), x, x.next_up()];
            let narrow = [near.next_down(), near, near.next_up()];
            wide.into_iter().chain(narrow.map(f64::from))
        })
        .collect()
}

/// The quadrants' borders to two turns, and large arguments.
fn angles() -> Vec<f64> {
    let borders = (1..=16).map(|k| f64::from(k) * FRAC_PI_4).collect();
    let large = vec![1e3, 1e6, 1099511627776.0, 1e15, 1e16, 1e22, 1e300];
    signed(around(borders).into_iter().chain(large).collect())
}

/// The cutoffs, and arguments about k ln 2 for the k at which the power of two changes its form.
fn exponents() -> Vec<f64> {
    let cutoffs = vec![7.09782712893383e+02, -7.45133219101941e+02, 709.5, 709.7];
    let powers = [
        -1075..=-1073,
        -1025..=-1021,
        -151..=-148,
        -128..=-125,
        126..=129,
        1022..=1024,
    ]
    .into_iter()
    .flatten()
    .flat_map(|k| [-0.4, 0.0, 0.4].map(|r| (f64::from(k) + r) * LN_2));
    around(cutoffs).into_iter().chain(powers).collect()
}

/// Where the mantissa is folded, about 1, and subnormals.
fn logarithms() -> Vec<f64> {
    let folds = vec![SQRT_2, SQRT_2 / 2.0, 1.0, 2.0, 10.0];
    let subnormal = [3, 0x0008_0000_0000_0000].map(f64::from_bits);
    around(folds).into_iter().chain(subnormal).collect()
}

fn tangents() -> Vec<f64> {
    signed(around(vec![0.25, 20.0, 0.5, 1.0]))
}

/// Bases and exponents that are told apart.
fn powers() -> Vec<(f64, f64)> {
    let (infinity, nan) = (f64::INFINITY, f64::NAN);
    let bases = [
        0.0, -0.0, 1.0, -1.0, 2.0, 0.5, -2.0, 1e-310, infinity, -infinity, nan,
    ];
    let exponents = [
        0.0, -0.0, 1.0, -1.0, 0.5, 3.0, -2.0, infinity, -infinity, nan,
    ];
    bases
        .into_iter()
        .flat_map(|x| exponents.map(|y| (x, y)))
        .collect()
}

/// The borders, and random arguments, as many of any pattern as musical ones; each pattern once.
fn arguments(borders: Vec<f64>, musical: fn(u64) -> f64) -> Vec<f64> {
    let any = (0..RANDOM / 2).map(|i| f64::from_bits(draw_at(6, i)));
    let random = any.chain((0..RANDOM / 2).map(musical));
    let mut all: Vec<f64> = special().into_iter().chain(borders).chain(random).collect();
    all.sort_by_key(|x| x.to_bits());
    all.dedup_by_key(|x| x.to_bits());
    all
}

/// Writes both files.
pub fn run() -> io::Result<()> {
    let mut replay = Replay::default();
    let angles = arguments(angles(), phase);
    replay.wide("sin", &angles, det::sin);
    replay.wide("cos", &angles, det::cos);
    replay.narrow("sinf", &angles, det::sinf);
    replay.narrow("cosf", &angles, det::cosf);
    let exponents = arguments(exponents(), decay);
    replay.wide("exp", &exponents, exponential::exp);
    replay.narrow("expf", &exponents, det::expf);
    let logarithms = arguments(logarithms(), frequency);
    replay.wide("ln", &logarithms, det::ln);
    replay.narrow("lnf", &logarithms, det::lnf);
    let tangents = arguments(tangents(), drive);
    replay.wide("tanh", &tangents, det::tanh);
    replay.narrow("tanhf", &tangents, det::tanhf);
    let random = (0..RANDOM).map(pitch);
    let pairs: Vec<(f64, f64)> = powers().into_iter().chain(random).collect();
    replay.powers(&pairs);
    replay.write(FOLDER)
}
