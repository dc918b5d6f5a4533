//! Nanoseconds a sample of each wave as a note call, as a score of one note and as a chord of 16,
//! library and original.

use crate::harness::{tono_note_of, tono_render_seq_of, Library, NoteArgs, ScoreArgs};
use crate::hop_bench;
use crate::mapped_bench;
use crate::turns::{fastest, Table, Times};
use crate::voice_vectors::USUAL;
use crate::waves::{envelope, voice_of, BARS, STYLES, WAVES};
use tono::dsl::{KitStyle, SeqNote, SeqWave, TempoPoint, Value};
use tono::dsp::Rng;
use tono::render::seq::shim::{note_signal, render};
use tono::voice::Voice;

/// One second.
const RATE: u32 = 48_000;
pub const FRAMES: usize = 48_000;
/// Attack, decay, sustain, release and punch of the scores.
const ENVELOPE: [f32; 5] = [0.01, 0.1, 0.7, 0.2, 0.2];
/// A step of a second.
const TEMPO: f32 = 60.0;
pub const SECONDS: Timing = Timing {
    rate: RATE,
    tempo: TEMPO,
    steps_per_beat: 1,
    map: &[],
};
pub const GAIN: f32 = 0.8;
/// Rounds of each side in turn, of which the fastest counts.
const ROUNDS: usize = 9;

/// What both sides are handed, and the buffers that the library is lent.
pub struct Bench {
    rate: u32,
    tempo: f32,
    steps_per_beat: u32,
    points: Vec<u32>,
    hop: u32,
    style: u32,
    lane: Vec<f32>,
    pitch: Vec<f32>,
    duty: Vec<f32>,
    out: Vec<f32>,
    note_buf: Vec<f32>,
    string: Vec<f32>,
}

/// The pitches of a chord: harmonics of 55 hertz.
fn pitches(notes: usize) -> Vec<f32> {
    match notes {
        1 => vec![440.0],
        _ => (1..=notes).map(|k| 55.0 * k as f32).collect(),
    }
}

impl Bench {
    pub fn new(frames: usize) -> Bench {
        Bench {
            rate: RATE,
            tempo: TEMPO,
            steps_per_beat: 1,
            points: Vec::new(),
            hop: 1,
            style: 0,
            lane: Vec::new(),
            pitch: vec![440.0; frames],
            duty: vec![0.5; frames],
            out: vec![0.0; frames],
            note_buf: vec![0.0; frames],
            string: vec![0.0; 9600],
        }
    }

    /// The same at another tempo.
    pub fn at(self, tempo: f32, steps_per_beat: u32) -> Bench {
        Bench {
            tempo,
            steps_per_beat,
            ..self
        }
    }

    /// The same at another rate.
    pub fn at_rate(self, rate: u32) -> Bench {
        Bench { rate, ..self }
    }

    /// The same under a tempo map.
    pub fn under(self, points: &[u32]) -> Bench {
        Bench {
            points: points.to_vec(),
            ..self
        }
    }

    /// The same with a lane for curves, which is read at a hop.
    pub fn with_lane(self, hop: u32, lane: Vec<f32>) -> Bench {
        Bench { hop, lane, ..self }
    }

    /// The same of a style of the drum kit and at another pitch.
    pub fn hit(self, style: u32, pitch: f32) -> Bench {
        let pitch = vec![pitch; self.pitch.len()];
        Bench {
            style,
            pitch,
            ..self
        }
    }

    pub fn our_note(&mut self, library: Library, wave: u32) -> u32 {
        let args = NoteArgs {
            rate: self.rate,
            wave,
            style: self.style,
            knobs: &USUAL,
            bars: &BARS,
            gain: GAIN,
            state: &mut 1,
            draws: &mut 0,
            pitch: &self.pitch,
            duty: &self.duty,
            out: &mut self.out,
            string: &mut self.string,
        };
        tono_note_of(library, args)
    }

    pub fn our_score(&mut self, library: Library, wave: u32, words: &[u32]) -> u32 {
        let args = ScoreArgs {
            seeds: &mut [1; 8],
            counts: &mut [0; 8],
            draws: &mut 0,
            station: 0,
            rate: self.rate,
            tempo: self.tempo,
            steps_per_beat: self.steps_per_beat,
            points: &self.points,
            swing: 0.0,
            humanize: 0.0,
            hop: self.hop,
            wave,
            style: self.style,
            duty: 0.5,
            knobs: &USUAL,
            bars: &BARS,
            env: &ENVELOPE,
            notes: words,
            lane: &self.lane,
            out: &mut self.out,
            note_buf: &mut self.note_buf,
            string: &mut self.string,
        };
        tono_render_seq_of(library, args)
    }

    pub fn their_note(&self, wave: SeqWave) -> Vec<f32> {
        let voice = Voice {
            kit: STYLES[self.style as usize],
            ..voice_of(wave, &USUAL, &BARS)
        };
        let mut rng = Rng::new(1);
        note_signal(&voice, GAIN, &self.pitch, &self.duty, self.rate, &mut rng)
    }
}

/// What a score of the original's has beside its notes and frames.
#[derive(Clone, Copy)]
pub struct Timing<'a> {
    pub rate: u32,
    pub tempo: f32,
    pub steps_per_beat: u32,
    pub map: &'a [TempoPoint],
}

pub fn their_score(wave: SeqWave, notes: &[SeqNote], frames: usize, timing: Timing) -> Vec<f32> {
    their_hits(wave, STYLES[0], notes, frames, timing)
}

/// The same of a style of the drum kit.
pub fn their_hits(
    wave: SeqWave,
    kit: KitStyle,
    notes: &[SeqNote],
    frames: usize,
    timing: Timing,
) -> Vec<f32> {
    let voice = Voice {
        duty: 0.5,
        kit,
        env: envelope(ENVELOPE),
        ..voice_of(wave, &USUAL, &BARS)
    };
    render(
        &voice,
        timing.map,
        timing.tempo,
        timing.steps_per_beat,
        notes,
        frames,
        timing.rate,
        &mut Rng::new(1),
    )
}

/// A note of each pitch at a step: the library's words, and the original's notes.
pub fn chord(notes: usize, step: u32, len: u32) -> (Vec<u32>, Vec<SeqNote>) {
    let words = |p: &f32| [step, len, 0, p.to_bits(), GAIN.to_bits()];
    let note = |p: &f32| SeqNote {
        step,
        len,
        pitch: Value::Const(*p),
        gain: GAIN,
    };
    let pitches = pitches(notes);
    (
        pitches.iter().flat_map(words).collect(),
        pitches.iter().map(note).collect(),
    )
}

fn row(bench: &mut Bench, place: u32, wave: SeqWave) -> Vec<Times> {
    let shared = Bench::new(FRAMES);
    let note = fastest(
        ROUNDS,
        FRAMES,
        |library| bench.our_note(library, place),
        || shared.their_note(wave),
    );
    let scores = [1, 16].map(|count| {
        let (words, notes) = chord(count, 0, 1);
        fastest(
            ROUNDS,
            FRAMES * count,
            |library| bench.our_score(library, place, &words),
            || their_score(wave, &notes, FRAMES, SECONDS),
        )
    });
    [[note].as_slice(), &scores].concat()
}

/// Prints tables in Markdown: nanoseconds a sample of a note, library and original, and their ratio;
/// then those of mapped scores and of curves at hops.
pub fn run() {
    let columns = ["note call", "score of one note", "chord of 16"];
    let mut table = Table::new(&["wave"], &columns, 1.0);
    let mut bench = Bench::new(FRAMES);
    for (place, name, wave) in WAVES {
        table.row(name, row(&mut bench, place, wave));
    }
    table.means();
    table.against_old();
    mapped_bench::run();
    hop_bench::run();
}
