//! The replay files of crates/voice_vectors: notes of every wave, with the original's samples.

use crate::drawbars::REGISTRATIONS;
use crate::kit_cases;
use crate::random::{draw, draw_at, state_at};
use crate::vectors::pattern;
use crate::voices::Note;
use crate::waves::{BARS, KIT, ORGAN, WAVES};
use std::fs;
use std::io;
use std::path::Path;
use tono::dsl::SeqWave;

const FOLDER: &str = concat!(env!("CARGO_MANIFEST_DIR"), "/../crates/voice_vectors");

/// Ordinary knobs, in the order fm, pluck, piano, bass.
pub const USUAL: [f32; 22] = [
    1.0, 2.0, 0.3, // fm
    0.996, 0.2, 0.3, 0.1, // pluck
    1.0, 0.125, 1.0, 1.0, 1.0, // piano
    300.0, 900.0, 1500.0, 0.12, 200.0, 0.9, 0.5, 1.0, 0.3, 1.2, // bass
];

/// A note by its first values, of which the last goes on.
struct Case {
    style: u32,
    rate: u32,
    gain: f32,
    frames: usize,
    pitch: Vec<f32>,
    duty: Vec<f32>,
    knobs: [f32; 22],
    bars: [f32; 10],
}

impl Case {
    fn usual(rate: u32, gain: f32, frames: usize, pitch: &[f32]) -> Case {
        Case {
            style: 0,
            rate,
            gain,
            frames,
            pitch: pitch.to_vec(),
            duty: vec![0.5; pitch.len()],
            knobs: USUAL,
            bars: BARS,
        }
    }

    fn style(mut self, style: u32) -> Case {
        self.style = style;
        self
    }

    fn knobs(mut self, every: f32) -> Case {
        self.knobs = [every; 22];
        self
    }

    fn bars(mut self, bars: [f32; 10]) -> Case {
        self.bars = bars;
        self
    }

    fn duty(mut self, duty: &[f32]) -> Case {
        self.duty = duty.to_vec();
        self
    }
}

/// Ordinary notes, odd knobs, curves, odd pitches and gains, both ends of the rates.
fn cases() -> Vec<Case> {
    let tiny = f32::from_bits(3);
    vec![
        Case::usual(48000, 0.8, 24, &[440.0]),
        Case::usual(8000, 1.0, 100, &[110.0]).duty(&[0.3]),
        Case::usual(192000, 0.5, 24, &[2000.0]),
        Case::usual(44100, 0.7, 24, &[220.0, 330.0, 440.0, 550.0]).duty(&[0.1, 0.9, -1.0, 2.0]),
        Case::usual(48000, 0.8, 12, &[-0.0]),
        Case::usual(48000, 0.8, 12, &[0.0, -100.0, 65536.0, 30000.0]).duty(&[0.5, 0.0, 1.0, 0.5]),
        Case::usual(8000, -2.5, 24, &[5000.0]),
        Case::usual(48000, 65536.0, 12, &[tiny, 20.0]).duty(&[0.5, 0.5]),
        Case::usual(48000, 0.8, 12, &[440.0]).knobs(0.0),
        Case::usual(48000, 0.8, 12, &[440.0]).knobs(-1.0),
        Case::usual(48000, 0.8, 12, &[440.0]).knobs(65536.0),
        Case::usual(48000, -65536.0, 24, &[440.0]).knobs(-65536.0),
        Case::usual(48000, 0.8, 12, &[440.0]).knobs(tiny),
    ]
}

/// The organ with each registration, over frames in which the phase turns over.
fn registrations() -> Vec<Case> {
    let of = |bars: &[f32; 10]| Case::usual(8000, 0.8, 40, &[440.0]).bars(*bars);
    REGISTRATIONS.iter().map(of).collect()
}

/// The drum kit's hits, and other waves with a style, which changes nothing.
fn hits() -> Vec<Case> {
    let of =
        |(style, rate, frames, first)| Case::usual(rate, 0.8, frames, &[first, 123.0]).style(style);
    kit_cases::hits().into_iter().map(of).collect()
}

fn styled() -> Vec<Case> {
    [1, 2, 3]
        .map(|style| Case::usual(48000, 0.8, 4, &[440.0]).style(style))
        .into()
}

/// Patterns, each after a space.
pub fn hex(values: &[f32]) -> String {
    values
        .iter()
        .map(|x| format!(" {:08x}", x.to_bits()))
        .collect()
}

/// A sample as the replay prints it.
pub fn sample(x: f32) -> String {
    format!(" {:08x}", pattern(x))
}

fn prolonged(values: &[f32], n: usize) -> Vec<f32> {
    (0..n).map(|i| values[i.min(values.len() - 1)]).collect()
}

/// The case's line and the original's answer. The state after it is found by counting draws: its
/// next draw is known.
fn answer(case: &Case, place: u32, wave: SeqWave, state: u64) -> (String, String) {
    let note = Note {
        rate: case.rate,
        style: case.style,
        gain: case.gain,
        knobs: case.knobs,
        bars: case.bars,
        state,
        pitch: prolonged(&case.pitch, case.frames),
        duty: prolonged(&case.duty, case.frames),
    };
    let (samples, next) = note.theirs(wave);
    let draws = (0..20_000).find(|&c| draw(state_at(state, c)) == next);
    let after = state_at(state, draws.expect("a note draws less"));
    let line = format!(
        "note {place:08x} {:08x} {:08x} {:08x} {state:016x} {:04x} {:04x}{}{}{}{}",
        case.style,
        case.rate,
        case.gain.to_bits(),
        case.frames,
        case.pitch.len(),
        hex(&case.pitch),
        hex(&case.duty),
        hex(&case.knobs),
        hex(&case.bars)
    );
    let samples: String = samples.into_iter().map(sample).collect();
    (line, format!("{samples} {after:016x}"))
}

/// Writes both files.
pub fn run() -> io::Result<()> {
    let (mut stdin, mut stdout) = (String::new(), String::new());
    for (place, _, wave) in WAVES {
        let mut cases = cases();
        if place == ORGAN {
            cases.extend(registrations());
        }
        cases.extend(if place == KIT { hits() } else { styled() });
        for (i, case) in cases.iter().enumerate() {
            let state = draw_at(7, (place as u64) * 100 + i as u64);
            let (line, answer) = answer(case, place, wave, state);
            stdin += &format!("{line}\n");
            stdout += &format!("{line}{answer}\n");
        }
    }
    let folder = Path::new(FOLDER);
    fs::write(folder.join("stdin"), &stdin)?;
    fs::write(folder.join("stdout"), &stdout)?;
    println!("{} cases, {} bytes", stdin.lines().count(), stdin.len());
    Ok(())
}
