//! A part of render/seq.rs: its private functions under public names.
use super::*;
use crate::voice::Voice;

/// With no points the tempo is straight.
fn with_voice<R>(voice: &Voice, points: &[TempoPoint], act: impl FnOnce(&SeqVoice) -> R) -> R {
    let duty = Value::Const(voice.duty);
    act(&SeqVoice {
        wave: voice.wave,
        duty: &duty,
        fm: &voice.fm,
        pluck: &voice.pluck,
        piano: &voice.piano,
        kit: voice.kit,
        bass: &voice.bass,
        sf2: "",
        sf2_preset: 0,
        sf2_bank: 0,
        swing: voice.swing,
        humanize: voice.humanize,
        env: &voice.env,
        tempo_map: points,
    })
}

/// One note over its pitch and duty by frame.
pub fn note_signal(
    voice: &Voice,
    gain: f32,
    f: &[f32],
    d: &[f32],
    sr: u32,
    rng: &mut Rng,
) -> Vec<f32> {
    let note = SeqNote {
        step: 0,
        len: 0,
        pitch: Value::Const(0.0),
        gain,
    };
    with_voice(voice, &[], |v| seq_note_signal(v, &note, f, d, sr, rng))
}

/// A hit of the drum kit.
pub fn hit(f: &[f32], sr: u32, rng: &mut Rng, style: KitStyle) -> Vec<f32> {
    super::super::kit::kit_drum(f, sr, rng, style)
}

/// A whole score: by `render_seq_mapped` where it has points.
pub fn render(
    voice: &Voice,
    points: &[TempoPoint],
    bpm: f32,
    steps_per_beat: u32,
    notes: &[SeqNote],
    n: usize,
    sr: u32,
    rng: &mut Rng,
) -> Vec<f32> {
    with_voice(voice, points, |v| {
        render_seq(bpm, steps_per_beat, v, notes, n, sr, rng)
    })
}

/// A note's start and grooved gain.
pub fn groove(voice: &Voice, note: &SeqNote, step_dur: f32) -> (usize, f32) {
    with_voice(voice, &[], |v| groove_note(note, v, step_dur))
}

/// A note's start, end and grooved gain under a tempo map.
pub fn groove_mapped(
    voice: &Voice,
    points: &[TempoPoint],
    note: &SeqNote,
    steps_per_beat: u32,
    sr: u32,
) -> (usize, usize, f32) {
    let map = TempoMap { points };
    with_voice(voice, points, |v| {
        groove_note_mapped(note, v, &map, steps_per_beat, sr)
    })
}

/// Humanize's timing and gain.
pub fn draws(note: &SeqNote) -> (f32, f32) {
    humanize_draws(note)
}
