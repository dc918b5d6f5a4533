//! The drum kit's cases of the replay files.

use crate::groove_cases::Draws;
use crate::kits::{borders, pitch_of};
use crate::random::{draw, state_at};
use crate::reference::Session;
use crate::score::Score;
use crate::score_cases::{curve, note, tone, usual};
use crate::station_cases::planned_draws;
use crate::waves::{KIT, STYLES, WAVES};
use tono::dsp::Rng;
use tono::render::seq::shim::hit;

/// Each number that kit.rs names, and some beside them.
pub const DRUMS: [u32; 27] = [
    0, 34, 35, 36, 37, 38, 39, 40, 41, 42, 43, 44, 45, 46, 47, 48, 49, 50, 51, 52, 53, 54, 55, 56,
    57, 59, 127,
];
/// The numbers whose borders are tried on both sides.
const BORDERS: [usize; 5] = [34, 36, 37, 41, 55];
/// The styles and drums that draw for a while, and for how many milliseconds.
const EARLY: [(u32, u32, usize); 5] = [(0, 36, 2), (1, 35, 18), (2, 36, 3), (3, 36, 4), (3, 37, 3)];

/// The last pitch of a number and the first above it.
fn beside(number: usize) -> [f32; 2] {
    let above = borders()[number];
    [above - 1, above].map(|pattern| f32::from_bits(pattern as u32))
}

/// A hit: style, rate, frames and first pitch.
pub type Hit = (u32, u32, usize, f32);

/// Notes for crates/voice_vectors, of at most 128 frames.
pub fn hits() -> Vec<Hit> {
    let mut hits = Vec::new();
    for style in 0..4 {
        hits.extend(DRUMS.map(|midi| (style, 8000, 20, pitch_of(midi))));
        let both = BORDERS.iter().flat_map(|&m| beside(m));
        hits.extend(both.map(|pitch| (style, 48_000, 3, pitch)));
        hits.extend([0.0, -440.0, 65536.0].map(|pitch| (style, 192_000, 3, pitch)));
        // a clap through its bursts, and a tom
        hits.extend([39, 50].map(|midi| (style, 8000, 128, pitch_of(midi))));
    }
    hits.extend(
        EARLY.map(|(style, midi, ms)| (style, 8000, (8 * ms + 2).min(128), pitch_of(midi))),
    );
    hits
}

/// Counts for crates/groove_vectors.
pub fn draws() -> Vec<Draws> {
    let mut all = Vec::new();
    let mut add = |style, rate, frames, pitch| {
        all.push(Draws {
            wave: KIT,
            rate,
            pitch,
            frames,
            style,
        })
    };
    for style in 0..4 {
        for midi in DRUMS {
            add(style, 44_100, 1000, pitch_of(midi));
        }
        for pitch in BORDERS.iter().flat_map(|&m| beside(m)) {
            add(style, 44_100, 1000, pitch);
        }
        for pitch in [-0.0, -65_536.0, 7.999_999_5, 65_536.0] {
            add(style, 44_100, 1000, pitch);
        }
    }
    for (style, midi, ms) in EARLY {
        for rate in [8_000, 11_025, 44_100, 192_000] {
            let drawn = (ms * rate as usize).div_ceil(1000);
            for frames in [1, drawn - 1, drawn, drawn + 1, 5_000] {
                add(style, rate, frames, pitch_of(midi));
            }
        }
    }
    all
}

/// How many draws the original's hit makes: no two states have one next draw.
pub fn made_by_hit(case: &Draws) -> usize {
    let (state, mut rng) = (0x0123_4567_89ab_cdef, Rng::new(0x0123_4567_89ab_cdef));
    let pitch = vec![case.pitch; case.frames];
    hit(&pitch, case.rate, &mut rng, STYLES[case.style as usize]);
    let next = rng.next_u64();
    let made = (0..=case.frames).find(|&c| draw(state_at(state, c as u64)) == next);
    made.expect("a frame has one draw at most")
}

fn with(change: impl FnOnce(&mut Score)) -> Score {
    let mut score = usual();
    (score.wave, score.out, score.note_buf) = (KIT, 48, 48);
    score.words = words(&[36, 46]);
    score.lane.clear();
    change(&mut score);
    score
}

fn words(drums: &[u32]) -> Vec<u32> {
    let notes = drums.iter().enumerate();
    let notes = notes.map(|(i, &midi)| note(i as u32, 2, pitch_of(midi), 0.6));
    notes.flatten().collect()
}

/// Scores for crates/score_vectors that are each played on a session of its own: drums of each style, a style of
/// other waves, which changes nothing, and styles that are none.
pub fn edges() -> Vec<Score> {
    let mut scores = Vec::new();
    for style in 0..4 {
        for drums in DRUMS.chunks(6) {
            scores.push(with(|s| (s.style, s.words) = (style, words(drums))));
        }
        // a curve whose first pitch is a kick's, quarter tones, and drums on both sides of a border
        scores.push(with(|s| {
            (s.style, s.lane) = (style, vec![pitch_of(56); 32]);
            s.lane[3] = pitch_of(36);
            s.words = [curve(0, 3, 3, 0.8), curve(1, 3, 4, 0.8)].concat();
        }));
        scores.push(with(|s| {
            s.style = style;
            s.words = [
                tone(0, 4, 72, 0.5),
                tone(1, 4, 75, 0.5),
                tone(2, 4, 84, 0.5),
            ]
            .concat();
        }));
        scores.push(with(|s| {
            let both = beside(36).map(|pitch| note(0, 6, pitch, 0.5));
            (s.style, s.words) = (style, both.concat());
        }));
    }
    let others = WAVES.iter().filter(|w| w.0 != KIT);
    scores.extend(others.map(|&(wave, ..)| {
        with(|s| (s.wave, s.style, s.out, s.note_buf) = (wave, 1 + wave % 3, 20, 20))
    }));
    scores.extend(no_styles());
    scores
}

/// A style that is none, of the drum kit and of others, alone and with what is refused: no call is made.
fn no_styles() -> Vec<Score> {
    let faults: [fn(&mut Score); 8] = [
        |_| (),
        |s| s.wave = 0,
        |s| s.wave = 9,
        |s| s.wave = 17,
        |s| s.wave = 18,
        |s| s.station = 8,
        |s| s.rate = 7999,
        |s| s.knobs.truncate(21),
    ];
    let none = |style: u32, fault: fn(&mut Score)| {
        let mut score = with(|s| (s.style, s.out, s.note_buf) = (style, 4, 4));
        fault(&mut score);
        score
    };
    let both = faults
        .iter()
        .flat_map(|&fault| [4, u32::MAX].map(|style| none(style, fault)));
    let others = [5, 7, 255, 256, 65_536].map(|style| none(style, |_| ()));
    both.chain(others).collect()
}

/// Hits of every style on some station, with refused calls between them; then counts from which a kick ends at the
/// last draw, and passes it.
pub fn lists() -> Vec<(Session, Vec<Score>)> {
    let bar = [36, 42, 38, 46, 37, 45];
    let mut mixed = Vec::new();
    for i in 0..8u32 {
        let (style, station) = (i / 2, (3 * i) % 8);
        mixed.push(with(|s| {
            (s.style, s.station, s.words) = (style, station, words(&bar));
        }));
        match i % 4 {
            0 => mixed.push(with(|s| (s.style, s.station) = (4, station))),
            1 => mixed.push(with(|s| {
                (s.style, s.station, s.string) = (style, station, 9599)
            })),
            2 => mixed.push(with(|s| (s.style, s.station) = (style, 8))),
            _ => mixed.push(with(|s| (s.wave, s.style, s.station) = (4, style, station))),
        }
    }
    let mut lists = vec![(Session::open(0xfeed_beef_0000_0005, 5000), mixed)];
    for style in 0..4 {
        let kick = with(|s| {
            s.style = style;
            s.words = note(0, 6, pitch_of(36), 0.9).to_vec();
        });
        let silent = with(|s| (s.style, s.words) = (style, words(&[56, 56])));
        let last = u64::MAX - planned_draws(&kick);
        for over in [0, 1] {
            let calls = [&kick, &silent, &kick].map(Score::clone).to_vec();
            lists.push((Session::open(style as u64, last + over), calls));
        }
    }
    lists
}
