//! Nanoseconds a frame of a note call, and of a score of one note, whose pitch is a number or a curve at some
//! hops, library and original. The original is given the widened curve.

use crate::bench::{chord, their_score, Bench, FRAMES, GAIN, SECONDS};
use crate::harness::Library;
use crate::turns::{fastest, Table, Times};
use crate::waves::WAVES;
use tono::dsl::{SeqNote, SeqWave, Value};

const TRIED: [&str; 6] = ["square", "triangle", "sawtooth", "sine", "noise", "strings"];
const HOPS: [u32; 3] = [1, 64, 4096];
/// All pitches are this one, so that all frames of a wave are the same and only their reading differs.
const PITCH: f32 = 440.0;
/// Rounds of each side in turn, of which the fastest counts.
const ROUNDS: usize = 60;

fn note_call(place: u32, wave: SeqWave) -> Times {
    let (mut bench, shared) = (Bench::new(FRAMES), Bench::new(FRAMES));
    fastest(
        ROUNDS,
        FRAMES,
        |library| bench.our_note(library, place),
        || shared.their_note(wave),
    )
}

fn constant(place: u32, wave: SeqWave) -> Times {
    let (words, notes) = chord(1, 0, 1);
    let mut bench = Bench::new(FRAMES);
    let number = bench.our_score(Library::Own, place, &words);
    assert_eq!(number, 0, "the score is accepted");
    fastest(
        ROUNDS,
        FRAMES,
        |library| bench.our_score(library, place, &words),
        || their_score(wave, &notes, FRAMES, SECONDS),
    )
}

fn curve(place: u32, wave: SeqWave, hop: u32) -> Times {
    let lane = vec![PITCH; FRAMES.div_ceil(hop as usize)];
    let widened = SeqNote {
        step: 0,
        len: 1,
        pitch: Value::Modulated(vec![PITCH; FRAMES]),
        gain: GAIN,
    };
    let notes = [widened];
    let words = [0, 1, 1, 0, GAIN.to_bits()];
    let mut bench = Bench::new(FRAMES).with_lane(hop, lane);
    let number = bench.our_score(Library::Own, place, &words);
    assert_eq!(number, 0, "the score is accepted");
    fastest(
        ROUNDS,
        FRAMES,
        |library| bench.our_score(library, place, &words),
        || their_score(wave, &notes, FRAMES, SECONDS),
    )
}

/// Prints a table in Markdown.
pub fn run() {
    println!("Nanoseconds a frame of a note call, and of a score of one note by its pitch.");
    let hops = HOPS.map(|hop| format!("hop {hop}"));
    let columns: Vec<&str> = ["note call", "a number"]
        .into_iter()
        .chain(hops.iter().map(String::as_str))
        .collect();
    let mut table = Table::new(&["wave"], &columns, 1.0);
    for (place, name, wave) in WAVES.into_iter().filter(|w| TRIED.contains(&w.1)) {
        let plain = [note_call(place, wave), constant(place, wave)];
        let curves = HOPS.map(|hop| curve(place, wave, hop));
        table.row(name, [plain.as_slice(), &curves].concat());
    }
    table.against_old();
}
