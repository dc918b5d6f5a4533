//! The replay files of crates/float_vectors: the helpers' boundaries, with the answers of plain
//! Rust. A line is a name and the arguments' patterns; its answer is appended in the second file.

use crate::borders::*;
use std::fs;
use std::io;
use std::path::Path;

const FOLDER: &str = concat!(env!("CARGO_MANIFEST_DIR"), "/../crates/float_vectors");

/// The two texts of a replay: the cases, and the cases with their answers.
#[derive(Default)]
pub struct Replay {
    pub cases: String,
    pub answers: String,
}

impl Replay {
    /// Writes both files of a program.
    pub fn write(&self, folder: &str) -> io::Result<()> {
        let folder = Path::new(folder);
        fs::write(folder.join("stdin"), &self.cases)?;
        fs::write(folder.join("stdout"), &self.answers)?;
        let (cases, bytes) = (self.cases.lines().count(), self.cases.len());
        println!("{cases} cases, {bytes} bytes");
        Ok(())
    }

    pub fn push(&mut self, case: String, answer: String) {
        self.cases += &format!("{case}\n");
        self.answers += &format!("{case} {answer}\n");
    }

    fn single(&mut self, name: &str, centres: &[&[u64]], rust: impl Fn(f32) -> String) {
        for pattern in around(centres, 1 << 31) {
            let answer = rust(f32::from_bits(pattern as u32));
            self.push(format!("{name} {pattern:08x}"), answer);
        }
    }

    fn double(&mut self, name: &str, centres: &[&[u64]], rust: impl Fn(f64) -> String) {
        for pattern in around(centres, 1 << 63) {
            let answer = rust(f64::from_bits(pattern));
            self.push(format!("{name} {pattern:016x}"), answer);
        }
    }

    fn pair(&mut self, name: &str, rust: impl Fn(f32, f32) -> f32) {
        for a in ORDER {
            for b in ORDER {
                let answer = rust(f32::from_bits(a), f32::from_bits(b));
                self.push(format!("{name} {a:08x} {b:08x}"), single(answer));
            }
        }
    }

    /// Each pair with three of the four signs; a remainder's sign is that of the first.
    fn remainders(&mut self) {
        for a in REMAINDERS {
            for b in REMAINDERS {
                for (a, b) in [(a, b), (a | 1 << 31, b), (a, b | 1 << 31)] {
                    let answer = f32::from_bits(a) % f32::from_bits(b);
                    self.push(format!("rem {a:08x} {b:08x}"), single(answer));
                }
            }
        }
    }

    fn pair_64(&mut self, name: &str, rust: impl Fn(f64, f64) -> f64) {
        for a in ORDER_64 {
            for b in ORDER_64 {
                let answer = rust(f64::from_bits(a), f64::from_bits(b));
                self.push(format!("{name} {a:016x} {b:016x}"), double(answer));
            }
        }
    }

    fn clamp(&mut self) {
        for x in ORDER {
            for (low, high) in RANGES {
                let answer = clamp(f32::from_bits(x), f32::from_bits(low), f32::from_bits(high));
                let case = format!("clamp {x:08x} {low:08x} {high:08x}");
                self.push(case, single(answer));
            }
        }
    }
}

/// Each pattern with its neighbours, with either sign; `sign` is the sign's bit.
fn around(centres: &[&[u64]], sign: u64) -> Vec<u64> {
    let mut patterns: Vec<u64> = centres
        .concat()
        .into_iter()
        .flat_map(|p| p.saturating_sub(1)..=(p + 1).min(sign - 1))
        .flat_map(|p| [p, p | sign])
        .collect();
    patterns.sort();
    patterns.dedup();
    patterns
}

/// The bits of x, one pattern for every NaN. The test is on the bits: after `sqrt`, rustc 1.95 at -O3
/// drops a test by `is_nan` that only picks the pattern.
pub fn pattern(x: f32) -> u32 {
    let bits = x.to_bits();
    let is_nan = bits & 0x7fff_ffff > 0x7f80_0000;
    if is_nan {
        0x7fc0_0000
    } else {
        bits
    }
}

/// A float as the replay prints it.
fn single(x: f32) -> String {
    format!("{:08x}", pattern(x))
}

fn double(x: f64) -> String {
    let bits = x.to_bits();
    let is_nan = bits & 0x7fff_ffff_ffff_ffff > 0x7ff0_0000_0000_0000;
    format!("{:016x}", if is_nan { 0x7ff8_0000_0000_0000 } else { bits })
}

fn max<X: PartialOrd>(a: X, b: X) -> X {
    if a > b {
        a
    } else {
        b
    }
}

fn min(a: f32, b: f32) -> f32 {
    if a < b {
        a
    } else {
        b
    }
}

fn clamp(x: f32, low: f32, high: f32) -> f32 {
    if x < low {
        low
    } else if x > high {
        high
    } else {
        x
    }
}

/// Writes both files.
pub fn run() -> io::Result<()> {
    let mut replay = Replay::default();
    let whole: [&[u64]; 2] = [&BORDERS, &WHOLE];
    replay.single("floor", &whole, |x| single(x.floor()));
    replay.single("trunc", &whole, |x| single(x.trunc()));
    replay.single("round", &whole, |x| single(x.round()));
    replay.single("fract", &whole, |x| single(x.fract()));
    replay.single("abs", &[&BORDERS], |x| single(x.abs()));
    replay.single("signum", &[&BORDERS], |x| single(x.signum()));
    replay.single("sqrt", &[&BORDERS, &SQUARES], |x| single(x.sqrt()));
    replay.single("bits", &[&BORDERS], single);
    replay.single("widen", &[&BORDERS], |x| double(x as f64));
    let integers: [&[u64]; 3] = [&BORDERS, &WHOLE, &INTEGER_ENDS];
    replay.single("usize", &integers, |x| format!("{:016x}", x as usize));
    let integers: [&[u64]; 3] = [&BORDERS, &WHOLE, &INTEGER_ENDS_32];
    replay.single("i32", &integers, |x| format!("{:016x}", x as i32 as i64));
    let whole: [&[u64]; 2] = [&BORDERS_64, &WHOLE_64];
    replay.double("floor64", &whole, |x| double(x.floor()));
    replay.double("trunc64", &whole, |x| double(x.trunc()));
    replay.double("round64", &whole, |x| double(x.round()));
    replay.double("narrow", &[&BORDERS_64, &NARROW], |x| single(x as f32));
    let integers: [&[u64]; 3] = [&BORDERS_64, &WHOLE_64, &INTEGER_ENDS_64];
    replay.double("i64", &integers, |x| format!("{:016x}", x as i64));
    replay.double("usize64", &integers, |x| format!("{:016x}", x as usize));
    replay.pair("max", max);
    replay.pair("min", min);
    replay.pair_64("max64", max);
    replay.remainders();
    replay.clamp();
    replay.write(FOLDER)
}
