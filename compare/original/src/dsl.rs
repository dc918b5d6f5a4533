//! Stand-ins for the types of dsl/mod.rs and dsl/node.rs: the fields that the voices read, in the
//! source's order. The tempo map is the source's own.

include!(concat!(env!("OUT_DIR"), "/tempo.rs"));

#[derive(Clone, Copy, PartialEq, Debug)]
pub enum SeqWave {
    Square,
    Triangle,
    Sawtooth,
    Sine,
    Noise,
    Fm,
    Pluck,
    Piano,
    Epiano,
    Organ,
    Strings,
    Brass,
    Flute,
    Mallet,
    Bell,
    Bass,
    Kit,
    Cowbell,
    Sampler,
}

pub enum Shape {
    Sine,
    Square,
    Triangle,
    Saw,
}

#[derive(Clone, Copy, PartialEq, Debug)]
pub enum KitStyle {
    Classic,
    Acoustic,
    Electronic,
    Eight08,
}

/// A curve's values stand in the place of a modulator.
pub enum Value {
    Const(f32),
    Note(String),
    Modulated(Vec<f32>),
}

#[derive(Clone, Copy)]
pub struct Adsr {
    pub a: f32,
    pub d: f32,
    pub s: f32,
    pub r: f32,
    pub punch: f32,
}

#[derive(Clone, Copy)]
pub struct FmKnobs {
    pub fm_ratio: f32,
    pub fm_index: f32,
    pub fm_strike: f32,
}

#[derive(Clone, Copy)]
pub struct PluckKnobs {
    pub pluck_decay: f32,
    pub pluck_body: f32,
    pub pluck_pick: f32,
    pub pluck_tone: f32,
}

#[derive(Clone, Copy)]
pub struct PianoKnobs {
    pub piano_hammer: f32,
    pub piano_strike: f32,
    pub piano_inharm: f32,
    pub piano_detune: f32,
    pub piano_decay: f32,
}

#[derive(Clone, Copy)]
pub struct BassKnobs {
    pub bass_cutoff: f32,
    pub bass_env: f32,
    pub bass_env_vel: f32,
    pub bass_decay: f32,
    pub bass_click: f32,
    pub bass_body: f32,
    pub bass_sub: f32,
    pub bass_sub_ratio: f32,
    pub bass_drive: f32,
    pub bass_body_decay: f32,
}

pub struct Sf2Knobs {
    pub sf2: String,
    pub sf2_preset: u32,
    pub sf2_bank: u32,
}

pub struct SeqNote {
    pub step: u32,
    pub len: u32,
    pub pitch: Value,
    pub gain: f32,
}

pub enum Node {
    Seq {
        bpm: f32,
        tempo_map: Vec<TempoPoint>,
        steps_per_beat: u32,
        wave: SeqWave,
        duty: Value,
        fm: FmKnobs,
        pluck: PluckKnobs,
        piano: PianoKnobs,
        kit: KitStyle,
        bass: BassKnobs,
        sf2: Sf2Knobs,
        swing: f32,
        humanize: f32,
        env: Adsr,
        notes: Vec<SeqNote>,
    },
    Other,
}

/// Read by the delays of dsp.rs, which no voice uses.
pub mod bounds {
    pub const MAX_DELAY_SECS: f32 = 4.0;
}
