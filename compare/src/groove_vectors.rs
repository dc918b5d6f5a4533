//! The replay files of crates/groove_vectors: `stdin` has the cases, `stdout` each case with the
//! original's answer.

use crate::groove_cases as cases;
use crate::kit_cases::made_by_hit;
use crate::mapped_grooves;
use crate::tones::quarter_tone;
use std::fmt::Write as _;
use std::fs;
use std::io;
use std::path::Path;

/// Stand-ins for the types of `dsl`, as far as the groove uses them.
#[allow(dead_code)]
enum Value {
    Const(f32),
    Note(String),
    Modulated(()),
}

struct SeqNote {
    step: u32,
    len: u32,
    pitch: Value,
    gain: f32,
}

struct SeqVoice {
    swing: f32,
    humanize: f32,
}

use crate::dsp::Rng;
include!(concat!(env!("OUT_DIR"), "/seq.rs"));

fn groove_answer(case: &cases::Groove) -> String {
    let note = SeqNote {
        step: case.step,
        len: case.len,
        pitch: match case.kind {
            0 => Value::Const(f32::from_bits(case.pitch)),
            2 => Value::Const(quarter_tone(case.pitch).expect("a q with a tone")),
            _ => Value::Modulated(()),
        },
        gain: case.gain,
    };
    let voice = SeqVoice {
        swing: case.swing,
        humanize: case.humanize,
    };
    let dur = step_dur(case.rate, case.bpm, case.steps_per_beat);
    let (start, gain) = groove_note(&note, &voice, dur);
    let len = note_len(&note, dur, case.n);
    let avail = if start >= case.n {
        0
    } else {
        sounded(case.n, start, len)
    };
    let (timing_draw, gain_draw) = humanize_draws(&note);
    format!(
        "{start:016x} {:08x} {len:016x} {avail:016x} {:08x} {:08x}",
        gain.to_bits(),
        timing_draw.to_bits(),
        gain_draw.to_bits()
    )
}

fn draws_answer(case: &cases::Draws) -> String {
    let draws = match case.wave {
        cases::PLUCK => period(&[case.pitch], case.rate),
        cases::PIANO => (0..case.frames).filter(|&i| thumps(i, case.rate)).count(),
        cases::KIT => made_by_hit(case),
        _ => case.frames,
    };
    format!("{draws:016x}")
}

/// Writes both files.
pub fn run() -> io::Result<()> {
    let mut stdin = String::new();
    let mut stdout = String::new();
    let mut put = |case: String, answer: String| {
        writeln!(stdin, "{case}").expect("a string takes any text");
        writeln!(stdout, "{case} {answer}").expect("a string takes any text");
    };
    for case in cases::grooves() {
        put(case.line(), groove_answer(&case));
    }
    for case in cases::draws() {
        put(case.line(), draws_answer(&case));
    }
    for (case, answer) in mapped_grooves::all() {
        put(case, answer);
    }
    let folder = Path::new(env!("CARGO_MANIFEST_DIR")).join("../crates/groove_vectors");
    fs::write(folder.join("stdin"), &stdin)?;
    fs::write(folder.join("stdout"), &stdout)?;
    println!("{} cases", stdin.lines().count());
    Ok(())
}
