//! The ceiling of a score's draws (02, Card 9), on planning calls at every rate and on score calls at some, by its
//! formula in whole numbers.

use crate::engine::{threads, Count};
use crate::harness::{tono_planned_draws, tono_render_seq, PlanArgs, ScoreArgs};
use crate::progress::Progress;
use crate::score_cases::note;
use crate::tried::{self, Tried};
use crate::waves::{BARS, WAVES};

const RATES: std::ops::RangeInclusive<u32> = 8000..=192_000;
const MOST_FRAMES: usize = 1_000_000;
const NOTES: [usize; 4] = [0, 1, 2, 1000];
const NOISE: u32 = 4;
const PLUCK: u32 = 6;
/// How many steps a note can have.
const HELD: u32 = 1_048_575;
/// One rate in so many is tried with each wave.
const EACH_WAVE: u32 = 97;
/// The rates of the score calls, and how many frames of notes each plays at most.
const PLAYED: [u32; 12] = [
    8000, 8009, 8010, 11_025, 16_000, 22_050, 44_100, 48_000, 88_200, 96_000, 191_999, 192_000,
];
const MOST_PLAYED: usize = 10_000_000;

/// "rate / 20 rounded half up"
fn longest(rate: u32) -> usize {
    ((rate + 10) / 20) as usize
}

/// "at most m times the larger of n and rate / 20 rounded half up"
fn ceiling(rate: u32, m: usize, n: usize) -> u64 {
    m as u64 * n.max(longest(rate)) as u64
}

/// The named score's wave.
fn loudest(rate: u32, n: usize) -> u32 {
    if longest(rate) <= n {
        NOISE
    } else {
        PLUCK
    }
}

/// The named score's notes: on step 0, held as long as a note can be, of 20 Hz and gain 1.
fn held(m: usize) -> Vec<u32> {
    note(0, HELD, 20.0, 1.0).repeat(m)
}

/// A number and the draws of a planning call of these notes, a step a second, from a session at draw 0.
fn planned(rate: u32, wave: u32, notes: &[u32], n: usize) -> (u32, u64) {
    let mut draws = 0;
    let number = tono_planned_draws(PlanArgs {
        seeds: &[0; 8],
        counts: &[0; 8],
        draws: &mut draws,
        station: 0,
        rate,
        tempo: 60.0,
        steps_per_beat: 1,
        points: &[],
        swing: 0.0,
        humanize: 0.0,
        hop: 1,
        wave,
        style: 0,
        duty: 0.0,
        knobs: &[0.0; 22],
        bars: &BARS,
        env: &[0.0; 5],
        notes,
        lane: &[],
        n,
    });
    (number, draws)
}

/// The same of a score call.
fn played(rate: u32, wave: u32, notes: &[u32], n: usize) -> (u32, u64) {
    let mut draws = 0;
    let mut counts = [0; 8];
    let number = tono_render_seq(ScoreArgs {
        seeds: &mut [0; 8],
        counts: &mut counts,
        draws: &mut draws,
        station: 0,
        rate,
        tempo: 60.0,
        steps_per_beat: 1,
        points: &[],
        swing: 0.0,
        humanize: 0.0,
        hop: 1,
        wave,
        style: 0,
        duty: 0.0,
        knobs: &[0.0; 22],
        bars: &BARS,
        env: &[0.0; 5],
        notes,
        lane: &[],
        out: &mut vec![0.0; n],
        note_buf: &mut vec![0.0; n],
        string: &mut [0.0; 9600],
    });
    (number, draws)
}

/// The lengths about the border between noise and pluck, and the ends of the domain.
fn lengths(rate: u32) -> [usize; 7] {
    let cut = (rate / 20) as usize;
    [
        1,
        cut - 1,
        cut,
        cut + 1,
        longest(rate) + 1,
        MOST_FRAMES - 1,
        MOST_FRAMES,
    ]
}

fn differs(what: &str, answer: (u32, u64), draws: u64) -> Option<String> {
    (answer != (0, draws)).then(|| format!("{what}: {answer:?} in place of {draws} draws"))
}

/// The named score reaches the ceiling at each border.
fn try_reached(rate: u32, lists: &[Vec<u32>], tried: &mut Tried) {
    for n in lengths(rate) {
        for notes in lists {
            let (m, wave) = (notes.len() / 5, loudest(rate, n));
            let answer = planned(rate, wave, notes, n);
            let what = format!("rate {rate}, {m} notes, {n} frames");
            tried.add(answer.0, differs(&what, answer, ceiling(rate, m, n)));
            tried.mark(if wave == NOISE {
                "reached by noise"
            } else {
                "reached by pluck"
            });
        }
    }
}

/// Notes of some pitches, steps and lengths: no wave draws more than the ceiling.
fn others() -> Vec<u32> {
    let pitches = [20.0, 19.0, 0.0, -5.0, 20.001, 440.0, 65_536.0];
    let mut words = Vec::new();
    for (i, pitch) in pitches.into_iter().enumerate() {
        let i = i as u32;
        words.extend(note(i / 3, HELD >> (3 * i), pitch, 1.0));
    }
    words
}

fn try_under(rate: u32, notes: &[u32], tried: &mut Tried) {
    let m = notes.len() / 5;
    for n in lengths(rate) {
        for (wave, name, _) in WAVES {
            let (number, draws) = planned(rate, wave, notes, n);
            let most = ceiling(rate, m, n);
            let above = number != 0 || draws > most;
            let line = || {
                format!("rate {rate}, {name}, {n} frames: {number}, {draws} draws, at most {most}")
            };
            tried.add(number, above.then(line));
            tried.mark("not above the ceiling, each wave");
        }
    }
}

/// The score call with the named score, of no more frames than are played in reasonable time.
fn try_played(rate: u32, tried: &mut Tried) {
    for n in lengths(rate) {
        for m in NOTES.into_iter().filter(|m| m * n <= MOST_PLAYED) {
            let answer = played(rate, loudest(rate, n), &held(m), n);
            let what = format!("score call, rate {rate}, {m} notes, {n} frames");
            tried.add(answer.0, differs(&what, answer, ceiling(rate, m, n)));
            tried.mark("score calls");
        }
    }
}

fn share(thread: u64, scale: u64, progress: &Progress) -> Tried {
    let mut tried = Tried::default();
    let (lists, notes) = (NOTES.map(held), others());
    let mine = |rate: &u32| *rate as u64 % threads() as u64 == thread;
    for rate in RATES.step_by(scale as usize).filter(mine) {
        try_reached(rate, &lists, &mut tried);
        if rate % EACH_WAVE == 0 {
            try_under(rate, &notes, &mut tried);
        }
        progress.add(1);
    }
    for rate in PLAYED.iter().filter(|rate| mine(rate)) {
        try_played(*rate, &mut tried);
    }
    tried
}

/// One rate in `scale`.
pub fn run(scale: u64) -> Count {
    let rates = RATES.step_by(scale as usize).count() as u64;
    tried::run("scores at the ceiling", rates, |thread, progress| {
        share(thread, scale, progress)
    })
}
