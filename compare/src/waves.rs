//! The waves by their places, and a voice of the original's from 22 knobs and 10 numbers of drawbars.

use std::ops::Range;
use tono::dsl::{Adsr, BassKnobs, FmKnobs, KitStyle, PianoKnobs, PluckKnobs, SeqWave};
use tono::voice::{Pairs, Voice, BARS as PAIRS};

/// Each wave with its place in the source's order.
pub const WAVES: [(u32, &str, SeqWave); 18] = [
    (0, "square", SeqWave::Square),
    (1, "triangle", SeqWave::Triangle),
    (2, "sawtooth", SeqWave::Sawtooth),
    (3, "sine", SeqWave::Sine),
    (4, "noise", SeqWave::Noise),
    (5, "fm", SeqWave::Fm),
    (6, "pluck", SeqWave::Pluck),
    (7, "piano", SeqWave::Piano),
    (8, "epiano", SeqWave::Epiano),
    (9, "organ", SeqWave::Organ),
    (10, "strings", SeqWave::Strings),
    (11, "brass", SeqWave::Brass),
    (12, "flute", SeqWave::Flute),
    (13, "mallet", SeqWave::Mallet),
    (14, "bell", SeqWave::Bell),
    (15, "bass", SeqWave::Bass),
    (16, "kit", SeqWave::Kit),
    (17, "cowbell", SeqWave::Cowbell),
];

/// The organ's place, and the drum kit's.
pub const ORGAN: u32 = 9;
pub const KIT: u32 = 16;

/// The styles of the drum kit in the source's order.
pub const STYLES: [KitStyle; 4] = [
    KitStyle::Classic,
    KitStyle::Acoustic,
    KitStyle::Electronic,
    KitStyle::Eight08,
];

/// The original's own drawbars, ratio before level.
pub const BARS: [f32; 10] = {
    let [a, b, c, d, e] = PAIRS;
    [a.0, a.1, b.0, b.1, c.0, c.1, d.0, d.1, e.0, e.1]
};

/// The wave at a place; none above 17.
pub fn wave_at(place: u32) -> Option<SeqWave> {
    let found = WAVES.iter().find(|w| w.0 == place);
    found.map(|w| w.2)
}

/// The style at a place; none above 3.
pub fn style_at(place: u32) -> Option<KitStyle> {
    STYLES.get(place as usize).copied()
}

/// Which of the 22 knobs a wave reads.
pub fn own_knobs(wave: u32) -> Range<usize> {
    match wave {
        5 => 0..3,
        6 => 3..7,
        7 => 7..12,
        15 => 12..22,
        _ => 0..0,
    }
}

/// A voice for a note alone: knobs in node.rs's order, fm, pluck, piano, bass; drawbars ratio before level; of the
/// first style.
pub fn voice_of(wave: SeqWave, k: &[f32; 22], bars: &[f32; 10]) -> Voice {
    Voice {
        wave,
        duty: 0.0,
        fm: FmKnobs {
            fm_ratio: k[0],
            fm_index: k[1],
            fm_strike: k[2],
        },
        pluck: PluckKnobs {
            pluck_decay: k[3],
            pluck_body: k[4],
            pluck_pick: k[5],
            pluck_tone: k[6],
        },
        piano: PianoKnobs {
            piano_hammer: k[7],
            piano_strike: k[8],
            piano_inharm: k[9],
            piano_detune: k[10],
            piano_decay: k[11],
        },
        kit: KitStyle::Classic,
        bass: bass_of(k),
        bars: pairs_of(bars),
        swing: 0.0,
        humanize: 0.0,
        env: envelope([0.0, 0.0, 1.0, 0.0, 0.0]),
    }
}

fn pairs_of(b: &[f32; 10]) -> Pairs {
    [0, 2, 4, 6, 8].map(|i| (b[i], b[i + 1]))
}

fn bass_of(k: &[f32; 22]) -> BassKnobs {
    BassKnobs {
        bass_cutoff: k[12],
        bass_env: k[13],
        bass_env_vel: k[14],
        bass_decay: k[15],
        bass_click: k[16],
        bass_body: k[17],
        bass_sub: k[18],
        bass_sub_ratio: k[19],
        bass_drive: k[20],
        bass_body_decay: k[21],
    }
}

pub fn envelope([a, d, s, r, punch]: [f32; 5]) -> Adsr {
    Adsr { a, d, s, r, punch }
}
