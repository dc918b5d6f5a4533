//! Score calls and note calls for python/calls.py, with what the reference answers. A case is 26 numbers of 64 bits,
//! then numbers of 64 bits, then words of 32 bits, all low byte first.
//!
//! A score call, kind 0: kind, station, rate, tempo, steps per beat, swing, humanize, hop, wave, style, duty, how long
//! output, note buffer and string are, how many seeds, counts, knobs, numbers of drawbars, envelope numbers, note words,
//! lane values, words of tempo points and frames there are, the call's number, its draws, and what the planning call
//! gives: the draws, or minus a number. Then the eight seeds, the eight counts before it and after it; then the lists in
//! the order of their lengths.
//!
//! A note call, kind 1: kind, rate, wave, style, gain, the state before it, how long output and string are, how many
//! knobs, numbers of drawbars, pitches, duties and frames there are, the call's number, its draws and the state after
//! it, then zeros. Then the lists.
//!
//! A float is given by its bits.

use crate::note_calls::Case;
use crate::random::{state_at, Source};
use crate::reference::{self, note_call, Called, Session};
use crate::score::Score;
use crate::station_calls::opened;
use crate::stream::{self, Out};
use std::io::{self, Write};

const NUMBERS: usize = 26;

fn put_numbers(numbers: &[u64], out: &mut Out) -> io::Result<()> {
    numbers
        .iter()
        .try_for_each(|n| out.write_all(&n.to_le_bytes()))
}

fn put_words(words: &[u32], out: &mut Out) -> io::Result<()> {
    words
        .iter()
        .try_for_each(|w| out.write_all(&w.to_le_bytes()))
}

fn put_floats(values: &[f32], out: &mut Out) -> io::Result<()> {
    values
        .iter()
        .try_for_each(|x| out.write_all(&x.to_bits().to_le_bytes()))
}

fn bits(x: f32) -> u64 {
    x.to_bits() as u64
}

/// The draws, or minus the number.
fn planned(called: &Called) -> u64 {
    match reference::number(called) {
        0 => reference::made(called),
        number => (number as u64).wrapping_neg(),
    }
}

/// Python has tempo points and not their words: one that is not whole is left out.
fn score(s: &mut Source) -> Score {
    let mut score = Score::stationed(s);
    score.points.truncate(score.points.len() / 4 * 4);
    score
}

fn put_score(s: &mut Source, out: &mut Out) -> io::Result<()> {
    let score = score(s);
    let before = opened(std::slice::from_ref(&score), s);
    let plan = planned(&before.plan_call(&score.call()));
    let mut after: Session = before;
    let called = after.score_call(&score.call());
    let frames = reference::frames(&called).unwrap_or(&[]);
    let numbers: [u64; NUMBERS] = [
        0,
        score.station as u64,
        score.rate as u64,
        bits(score.tempo),
        score.steps_per_beat as u64,
        bits(score.swing),
        bits(score.humanize),
        score.hop as u64,
        score.wave as u64,
        score.style as u64,
        bits(score.duty),
        score.out as u64,
        score.note_buf as u64,
        score.string as u64,
        score.seeds as u64,
        score.counts as u64,
        score.knobs.len() as u64,
        score.bars.len() as u64,
        score.env.len() as u64,
        score.words.len() as u64,
        score.lane.len() as u64,
        score.points.len() as u64,
        frames.len() as u64,
        reference::number(&called) as u64,
        reference::made(&called),
        plan,
    ];
    put_numbers(&numbers, out)?;
    put_numbers(&before.seeds(), out)?;
    put_numbers(&before.counts(), out)?;
    put_numbers(&after.counts(), out)?;
    put_floats(&score.knobs, out)?;
    put_floats(&score.bars, out)?;
    put_floats(&score.env, out)?;
    put_words(&score.words, out)?;
    put_floats(&score.lane, out)?;
    put_words(&score.points, out)?;
    put_floats(frames, out)
}

fn put_note(number: u64, out: &mut Out) -> io::Result<()> {
    let case = Case::random(number);
    let call = case.call();
    let called = note_call(&call);
    let frames = reference::frames(&called).unwrap_or(&[]);
    let made = reference::made(&called);
    let mut numbers = [0; NUMBERS];
    numbers[..16].copy_from_slice(&[
        1,
        call.rate as u64,
        call.wave as u64,
        call.style as u64,
        bits(call.gain),
        call.state,
        call.out as u64,
        call.string as u64,
        call.knobs.len() as u64,
        call.bars.len() as u64,
        call.pitch.len() as u64,
        call.duty.len() as u64,
        frames.len() as u64,
        reference::number(&called) as u64,
        made,
        state_at(call.state, made),
    ]);
    put_numbers(&numbers, out)?;
    put_floats(call.knobs, out)?;
    put_floats(call.bars, out)?;
    put_floats(call.pitch, out)?;
    put_floats(call.duty, out)?;
    put_floats(frames, out)
}

fn put(number: u64, out: &mut Out) -> io::Result<()> {
    // other calls than `compare stations` and `compare notes` have
    let mut s = Source::new(!number);
    match s.below(4) {
        0 => put_note(!number, out),
        _ => put_score(&mut s, out),
    }
}

/// Writes `count` cases from number `first` on.
pub fn run(first: u64, count: u64) -> io::Result<()> {
    stream::run("calls", first, count, put)
}
