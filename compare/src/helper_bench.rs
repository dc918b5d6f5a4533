//! Nanoseconds a call, through the library and by Rust's own operation.

use crate::harness::*;
use crate::random::{draw, unit};
use std::hint::black_box;
use std::time::Instant;

/// How many arguments there are: few enough to stay in the cache.
const ARGUMENTS: usize = 4096;
/// How many times the arguments are gone through in a round.
const PASSES: usize = 200;
/// How many rounds of each side, of which the fastest counts.
const ROUNDS: usize = 25;

/// Rust's own operations behind a call, since the library's are behind one.
mod plain {
    use super::draw;

    macro_rules! plain {
        ($($name:ident($x:ident: $from:ty) -> $to:ty $body:block)*) => {
            $(#[inline(never)]
            pub extern "C" fn $name($x: $from) -> $to $body)*
        };
    }

    plain! {
        narrow(x: f64) -> f32 { x as f32 }
        floor(x: f32) -> f32 { x.floor() }
        trunc(x: f32) -> f32 { x.trunc() }
        round(x: f32) -> f32 { x.round() }
        floor64(x: f64) -> f64 { x.floor() }
        trunc64(x: f64) -> f64 { x.trunc() }
        round64(x: f64) -> f64 { x.round() }
        sqrt(x: f32) -> f32 { x.sqrt() }
        rem(x: f32) -> f32 { x % 0.01 }
        signum(x: f32) -> f32 { x.signum() }
        to_i64(x: f64) -> i64 { x as i64 }
        to_usize(x: f32) -> usize { x as usize }
        to_usize64(x: f64) -> usize { x as usize }
        next(state: u64) -> u64 { draw(state) }
        bi(state: u64) -> f32 { (draw(state) >> 40) as f32 / 16777216.0 * 2.0 - 1.0 }
    }
}

/// The time of one round, in nanoseconds a call.
fn round<X: Copy, A>(arguments: &[X], call: impl Fn(X) -> A) -> f64 {
    let begun = Instant::now();
    for _ in 0..PASSES {
        for &x in black_box(arguments) {
            black_box(call(x));
        }
    }
    begun.elapsed().as_nanos() as f64 / (PASSES * arguments.len()) as f64
}

/// Times both sides in turn, and prints the best round of each.
fn row<X: Copy, A>(name: &str, arguments: &[X], library: impl Fn(X) -> A, rust: impl Fn(X) -> A) {
    let (mut ours, mut theirs) = (f64::INFINITY, f64::INFINITY);
    for _ in 0..ROUNDS {
        ours = ours.min(round(arguments, &library));
        theirs = theirs.min(round(arguments, &rust));
    }
    let ratio = ours / theirs;
    println!("{name:8} {ours:8.2} {theirs:8.2} {ratio:6.2}");
}

/// Arguments from `low` up to but not at `high`.
fn spread(low: f64, high: f64) -> Vec<f64> {
    (0..ARGUMENTS as u64)
        .map(|i| low + (high - low) * unit(1, i))
        .collect()
}

fn spread_f32(low: f64, high: f64) -> Vec<f32> {
    spread(low, high).into_iter().map(|x| x as f32).collect()
}

pub fn run() {
    println!("Nanoseconds a call. Both sides are called through a C function that is not inlined.");
    println!("{:8} {:>8} {:>8} {:>6}", "", "library", "Rust", "ratio");
    let samples = spread(-1.0, 1.0);
    row("narrow", &samples, |x| h_narrow(x), |x| plain::narrow(x));
    let phases = spread_f32(0.0, 4.0);
    row("floor", &phases, |x| h_floor(x), |x| plain::floor(x));
    row("trunc", &phases, |x| h_trunc(x), |x| plain::trunc(x));
    let periods = spread_f32(2.0, 9600.0);
    row("round", &periods, |x| h_round(x), |x| plain::round(x));
    let turns = spread(-1000.0, 1000.0);
    row("floor64", &turns, |x| h_floor64(x), |x| plain::floor64(x));
    row("trunc64", &turns, |x| h_trunc64(x), |x| plain::trunc64(x));
    row("round64", &turns, |x| h_round64(x), |x| plain::round64(x));
    row("sqrt", &phases, |x| h_sqrt(x), |x| plain::sqrt(x));
    let seconds = spread_f32(0.0, 2.0);
    row("rem", &seconds, |x| h_rem(x, 0.01), |x| plain::rem(x));
    let waves = spread_f32(-1.0, 1.0);
    row("signum", &waves, |x| h_signum(x), |x| plain::signum(x));
    row("i64", &turns, |x| h_i64(x), |x| plain::to_i64(x));
    let frames = spread_f32(0.0, 200_000.0);
    row("usize", &frames, |x| h_usize(x), |x| plain::to_usize(x));
    let frames = spread(0.0, 200_000.0);
    row(
        "usize64",
        &frames,
        |x| h_usize64(x),
        |x| plain::to_usize64(x),
    );
    let states: Vec<u64> = (0..ARGUMENTS as u64).map(draw).collect();
    row("draw", &states, |s| h_draw(s), |s| plain::next(s));
    row("bi", &states, |s| h_bi(s), |s| plain::bi(s));
}
