//! The voices against the original's `seq_note_signal`, note by note.

use crate::engine::{in_threads, same_values, threads, Count};
use crate::harness::{tono_note, NoteArgs};
use crate::progress::Progress;
use crate::random::{draw, Source};
use crate::waves::{voice_of, KIT, STYLES, WAVES};
use std::time::Instant;
use tono::dsl::SeqWave;
use tono::dsp::Rng;
use tono::voice::{note_signal, Voice};

/// How many notes of each wave are tried where no number is given.
pub const COUNT: u64 = 100_000;

/// One note: what is handed to both sides.
pub struct Note {
    pub rate: u32,
    pub gain: f32,
    pub style: u32,
    pub knobs: [f32; 22],
    pub bars: [f32; 10],
    pub state: u64,
    pub pitch: Vec<f32>,
    pub duty: Vec<f32>,
}

impl Note {
    pub fn random(place: u32, seed: u64) -> Note {
        let mut s = Source::new(seed);
        let rate = s.rate();
        let n = match s.below(4) {
            0 => 1 + s.below(8),
            1 => 1 + s.below(1500),
            _ => 1 + s.below(300),
        } as usize;
        let mut note = Note {
            rate,
            style: s.style(place),
            knobs: s.knobs(),
            bars: s.bars(),
            gain: s.sized(0.0, 1.0),
            state: s.number(),
            pitch: s.curve(n, 20.0, 5000.0),
            duty: s.curve(n, 0.0, 1.0),
        };
        if place == KIT {
            note.pitch[0] = s.pitch(KIT);
        }
        note
    }

    /// The library's samples and the draw that its generator would make next.
    pub fn ours(&self, place: u32, string: &mut [f32]) -> (Vec<f32>, u64) {
        let mut out = vec![f32::from_bits(0x7f12_3456); self.pitch.len()];
        let (mut state, mut draws) = (self.state, 0);
        tono_note(NoteArgs {
            rate: self.rate,
            wave: place,
            style: self.style,
            knobs: &self.knobs,
            bars: &self.bars,
            gain: self.gain,
            state: &mut state,
            draws: &mut draws,
            pitch: &self.pitch,
            duty: &self.duty,
            out: &mut out,
            string,
        });
        (out, draw(state))
    }

    /// The original's.
    pub fn theirs(&self, wave: SeqWave) -> (Vec<f32>, u64) {
        let mut rng = Rng::new(self.state);
        let voice = Voice {
            kit: STYLES[self.style as usize],
            ..voice_of(wave, &self.knobs, &self.bars)
        };
        let out = note_signal(
            &voice,
            self.gain,
            &self.pitch,
            &self.duty,
            self.rate,
            &mut rng,
        );
        (out, rng.next_u64())
    }
}

/// The first frame at which two notes differ; the number of frames where only the draws do.
pub fn first_difference(ours: &(Vec<f32>, u64), theirs: &(Vec<f32>, u64)) -> Option<usize> {
    let frame = same_values(&ours.0, &theirs.0).err();
    frame.or((ours.1 != theirs.1).then_some(ours.0.len()))
}

/// One thread's share of the notes of a wave: how many differ, and the first that does.
fn share(
    place: u32,
    wave: SeqWave,
    first: u64,
    count: u64,
    progress: &Progress,
) -> (u64, Option<(u64, usize)>) {
    let mut string = vec![0.0; 9600];
    let (mut differ, mut shown) = (0, None);
    for i in (first..count).step_by(threads()) {
        let note = Note::random(place, i * 32 + place as u64);
        let ours = note.ours(place, &mut string);
        if let Some(at) = first_difference(&ours, &note.theirs(wave)) {
            differ += 1;
            shown = shown.or(Some((i, at)));
        }
        progress.add(1);
    }
    (differ, shown)
}

/// Compares `count` notes of each wave.
pub fn run(count: u64) -> Count {
    let mut all = Count::default();
    for (place, name, wave) in WAVES {
        let begun = Instant::now();
        let progress = Progress::new(name, count);
        let shares = in_threads(|thread| share(place, wave, thread, count, &progress));
        drop(progress);
        let differ: u64 = shares.iter().map(|s| s.0).sum();
        let seconds = begun.elapsed().as_secs_f64();
        println!("{name:9} {count:>8} notes, {differ} differ, {seconds:.1} s");
        if let Some((note, frame)) = shares.iter().find_map(|s| s.1) {
            println!("  {name}: note {note}, from frame {frame}");
        }
        all = all
            + Count {
                cases: count,
                differ,
            };
    }
    all.printed()
}
