//! How the time of a call grows with the frames of a note and with the notes of a score, library and
//! original.

use crate::bench::{their_score, Bench, Timing, GAIN};
use crate::turns::{fastest, Times};
use crate::waves::WAVES;
use tono::dsl::{SeqNote, Value};

/// From a thousand frames to "n at most 16,777,216".
const FRAMES: [usize; 6] = [1_000, 10_000, 100_000, 1_000_000, 4_000_000, 16_000_000];
const NOTES: [usize; 6] = [1, 10, 100, 1_000, 10_000, 100_000];
/// A note is a step of 480 frames, and the score has a hundred of them.
const STEPS: usize = 100;
const STEP: usize = 480;
/// A hundred steps a second, at a tempo of the domain: 60 × 100 / 16.
const TEMPO: f32 = 375.0;
const STEPS_PER_BEAT: u32 = 16;
const TIMING: Timing = Timing {
    rate: 48_000,
    tempo: TEMPO,
    steps_per_beat: STEPS_PER_BEAT,
    map: &[],
};
/// The waves that are tried: one with no state, one with a phase, one with draws.
const TRIED: [&str; 3] = ["cowbell", "sine", "noise"];

/// More rounds of what is short.
fn rounds(samples: usize) -> usize {
    (10_000_000 / samples).clamp(2, 25)
}

fn line(what: &str, name: &str, size: usize, Times { ours, theirs, .. }: Times) {
    println!("{what} {name} {size} {ours:.2} {theirs:.2}");
}

/// A note call of each number of frames.
fn by_frames() {
    for (place, name, wave) in WAVES.into_iter().filter(|w| TRIED.contains(&w.1)) {
        for frames in FRAMES {
            let (mut bench, shared) = (Bench::new(frames), Bench::new(frames));
            let time = fastest(
                rounds(frames),
                frames,
                |library| bench.our_note(library, place),
                || shared.their_note(wave),
            );
            line("frames", name, frames, time);
        }
    }
}

/// A note of one step at step `number`, again from the first after the last.
fn note(number: usize) -> ([u32; 5], SeqNote) {
    let (step, pitch) = ((number % STEPS) as u32, 110.0 + (number % 50) as f32);
    let words = [step, 1, 0, pitch.to_bits(), GAIN.to_bits()];
    let note = SeqNote {
        step,
        len: 1,
        pitch: Value::Const(pitch),
        gain: GAIN,
    };
    (words, note)
}

/// A score of each number of notes.
fn by_notes() {
    for (place, name, wave) in WAVES.into_iter().filter(|w| TRIED.contains(&w.1)) {
        for count in NOTES {
            let (words, notes): (Vec<_>, Vec<_>) = (0..count).map(note).unzip();
            let words = words.concat();
            let mut bench = Bench::new(STEPS * STEP).at(TEMPO, STEPS_PER_BEAT);
            let time = fastest(
                rounds(count * STEP),
                count,
                |library| bench.our_score(library, place, &words),
                || their_score(wave, &notes, STEPS * STEP, TIMING),
            );
            line("notes", name, count, time);
        }
    }
}

/// Prints lines 'frames WAVE FRAMES OURS THEIRS' in nanoseconds a frame, and 'notes WAVE NOTES OURS
/// THEIRS' in nanoseconds a note.
pub fn run() {
    by_frames();
    by_notes();
}
