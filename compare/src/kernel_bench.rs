//! Nanoseconds a call of the f32 kernels, through the library and by the original.

use crate::harness::*;
use crate::kernels::*;
use std::f64::consts::TAU;
use std::hint::black_box;
use std::time::Instant;
use tono::det;

/// How many arguments there are: few enough to stay in the cache.
const ARGUMENTS: u64 = 4096;
/// How many times the arguments are gone through in a round.
const PASSES: usize = 5;
/// How many rounds of each side, of which the fastest counts. A round is short, so that on a busy
/// machine some are undisturbed.
const ROUNDS: usize = 300;

/// The original behind a call, since the library is behind one.
mod plain {
    use super::det;

    macro_rules! plain {
        ($($name:ident($($x:ident),*))*) => {
            $(#[inline(never)]
            pub extern "C" fn $name($($x: f32),*) -> f32 { det::$name($($x),*) })*
        };
    }

    plain! { sinf(x) cosf(x) expf(x) lnf(x) tanhf(x) powff(x, y) }
}

/// The time of one round, in nanoseconds a call.
fn round<X: Copy>(arguments: &[X], call: impl Fn(X) -> f32) -> f64 {
    let begun = Instant::now();
    for _ in 0..PASSES {
        for &x in black_box(arguments) {
            black_box(call(x));
        }
    }
    begun.elapsed().as_nanos() as f64 / (PASSES * arguments.len()) as f64
}

/// Times both sides in turn, and prints the best round of each.
fn row<X: Copy>(
    name: &str,
    argument: impl Fn(u64) -> X,
    library: impl Fn(X) -> f32,
    original: impl Fn(X) -> f32,
) {
    let arguments: Vec<X> = (0..ARGUMENTS).map(argument).collect();
    let (mut ours, mut theirs) = (f64::INFINITY, f64::INFINITY);
    for _ in 0..ROUNDS {
        ours = ours.min(round(&arguments, &library));
        theirs = theirs.min(round(&arguments, &original));
    }
    let ratio = ours / theirs;
    println!("{name:12} {ours:8.2} {theirs:8.2} {ratio:6.2}");
}

/// The phase of a tone of 440 Hz at 48 kHz, frame by frame, as a voice asks for it.
fn tone(i: u64) -> f64 {
    i as f64 * (440.0 / 48000.0 * TAU)
}

/// A decay over the same frames.
fn fall(i: u64) -> f64 {
    i as f64 * (-10.0 / ARGUMENTS as f64)
}

pub fn run() {
    println!("Nanoseconds a call. Both sides are called through a C function that is not inlined.");
    println!(
        "{:12} {:>8} {:>8} {:>6}",
        "", "library", "original", "ratio"
    );
    row(
        "sinf tone",
        |i| tone(i) as f32,
        |x| h_sinf(x),
        |x| plain::sinf(x),
    );
    row(
        "cosf tone",
        |i| tone(i) as f32,
        |x| h_cosf(x),
        |x| plain::cosf(x),
    );
    row(
        "expf fall",
        |i| fall(i) as f32,
        |x| h_expf(x),
        |x| plain::expf(x),
    );
    row(
        "sinf",
        |i| phase(i) as f32,
        |x| h_sinf(x),
        |x| plain::sinf(x),
    );
    row(
        "cosf",
        |i| phase(i) as f32,
        |x| h_cosf(x),
        |x| plain::cosf(x),
    );
    row(
        "expf",
        |i| decay(i) as f32,
        |x| h_expf(x),
        |x| plain::expf(x),
    );
    row(
        "lnf",
        |i| frequency(i) as f32,
        |x| h_lnf(x),
        |x| plain::lnf(x),
    );
    row(
        "tanhf",
        |i| drive(i) as f32,
        |x| h_tanhf(x),
        |x| plain::tanhf(x),
    );
    let narrow = |i| (pitch(i).0 as f32, pitch(i).1 as f32);
    row(
        "powff",
        narrow,
        |(x, y)| h_powff(x, y),
        |(x, y)| plain::powff(x, y),
    );
}
