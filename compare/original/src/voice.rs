//! A voice held by value, and the calls on it: by the original as it stands, or, for an organ with other
//! pairs than its own, by the copy in which those are replaced.

use crate::dsl::{
    Adsr, BassKnobs, FmKnobs, KitStyle, PianoKnobs, PluckKnobs, SeqNote, SeqWave, TempoPoint,
};
use crate::dsp::Rng;
use crate::render::{seq, seq_bars};
use std::cell::Cell;

/// Five pairs of ratio and level.
pub type Pairs = [(f32, f32); 5];

// `organ_note`'s own, by their text
include!(concat!(env!("OUT_DIR"), "/bars.rs"));

thread_local! {
    static SET: Cell<Pairs> = const { Cell::new(BARS) };
}

/// What the copy of `organ_note` has in the place of its own pairs.
pub(crate) fn pairs() -> Pairs {
    SET.get()
}

/// What a voice is set to.
#[derive(Clone, Copy)]
pub struct Voice {
    pub wave: SeqWave,
    pub duty: f32,
    pub fm: FmKnobs,
    pub pluck: PluckKnobs,
    pub piano: PianoKnobs,
    pub kit: KitStyle,
    pub bass: BassKnobs,
    pub bars: Pairs,
    pub swing: f32,
    pub humanize: f32,
    pub env: Adsr,
}

fn bits(pairs: Pairs) -> [(u32, u32); 5] {
    pairs.map(|(ratio, level)| (ratio.to_bits(), level.to_bits()))
}

impl Voice {
    /// Whether the original as it stands plays this voice.
    pub fn is_unaltered(&self) -> bool {
        self.wave != SeqWave::Organ || bits(self.bars) == bits(BARS)
    }
}

/// One note over its pitch and duty by frame.
pub fn note_signal(
    voice: &Voice,
    gain: f32,
    f: &[f32],
    d: &[f32],
    sr: u32,
    rng: &mut Rng,
) -> Vec<f32> {
    if voice.is_unaltered() {
        return seq::shim::note_signal(voice, gain, f, d, sr, rng);
    }
    note_with_pairs(voice, gain, f, d, sr, rng)
}

/// One note by the copy, whatever its pairs are.
pub fn note_with_pairs(
    voice: &Voice,
    gain: f32,
    f: &[f32],
    d: &[f32],
    sr: u32,
    rng: &mut Rng,
) -> Vec<f32> {
    SET.set(voice.bars);
    seq_bars::shim::note_signal(voice, gain, f, d, sr, rng)
}

/// A whole score: by `render_seq_mapped` where it has points.
pub fn render(
    voice: &Voice,
    points: &[TempoPoint],
    bpm: f32,
    steps_per_beat: u32,
    notes: &[SeqNote],
    n: usize,
    sr: u32,
    rng: &mut Rng,
) -> Vec<f32> {
    if voice.is_unaltered() {
        return seq::shim::render(voice, points, bpm, steps_per_beat, notes, n, sr, rng);
    }
    SET.set(voice.bars);
    seq_bars::shim::render(voice, points, bpm, steps_per_beat, notes, n, sr, rng)
}
