//! Compares the proved library with plain Rust, and times the two.

mod all;
mod answers;
mod bench;
mod block_kernels;
mod board_random;
mod board_reference;
mod board_vectors;
mod boards;
mod borders;
mod call_stream;
mod cases;
mod ceilings;
mod cue_reference;
mod cue_sheets;
mod cue_vectors;
mod drawbars;
mod dsp;
mod engine;
mod example;
mod exponential;
mod far_lane;
mod grid;
mod groove_cases;
mod groove_vectors;
mod growth;
mod harness;
mod helper_bench;
mod helpers;
mod hop_bench;
mod hop_calls;
mod hop_cases;
mod hop_kinds;
mod hop_random;
mod kernel_bench;
mod kernel_vectors;
mod kernels;
mod kit_bench;
mod kit_cases;
mod kit_draws;
mod kit_notes;
mod kit_scores;
mod kits;
mod lent;
mod libm;
mod long_scores;
mod mapped_bench;
mod mapped_calls;
mod mapped_cases;
mod mapped_grooves;
mod mapped_kinds;
mod mapped_random;
mod note_calls;
mod plan_calls;
mod progress;
mod random;
mod reference;
mod replay_vectors;
mod score;
mod score_calls;
mod score_cases;
mod score_kinds;
mod score_random;
mod score_vectors;
mod short_bench;
mod station_calls;
mod station_cases;
mod stimulus;
mod stream;
mod tempo_points;
mod text;
mod text_cases;
mod text_damage;
mod text_random;
mod text_reference;
mod text_stream;
mod texts;
mod tones;
mod tried;
mod turns;
mod vectors;
mod voice_vectors;
mod voices;
mod wave_files;
mod wave_random;
mod wave_reference;
mod wave_stream;
mod wave_vectors;
mod waves;

use engine::Count;
use std::env;
use std::io::{self, Read, Write};
use std::process::ExitCode;

const USAGE: &str =
    "usage: compare all [SCALE [SEED]] every comparison, one case in SCALE; a SEED for other random cases
       compare helpers [SCALE]   every f32 and 10^9 f64 patterns; one in SCALE of them
       compare bench             nanoseconds a sample of each wave by note and by score, library and original
       compare mapped-bench      the same of scores with tempo maps, and what a map costs a note; a part of bench
       compare hop-bench         the same of a score of one note with a curve at some hops; a part of bench
       compare short-bench       nanoseconds of notes of 1 to 63 frames of each voice and drum, as note calls and in scores of 10^4
       compare growth            how the time grows with frames and with notes
       compare helper-bench      nanoseconds a call of the float helpers, library and Rust
       compare vectors           writes the replay files of crates/float_vectors
       compare kernels [COUNT]   COUNT arguments of each kernel, 10^8 by default
       compare kernels all       the same, and all f32 patterns of sinf and expf and of the kernels over blocks
       compare block-kernels [SCALE]  the kernels over blocks alone; one block in SCALE
       compare kernel-bench      nanoseconds a call of the f32 kernels, library and original
       compare kernel-vectors    writes the replay files of crates/det_vectors
       compare libm [SCALE]      where the original's f32 kernels and libm part
       compare kits [SCALE]      the drum's number and the draws of hits; one in SCALE of the pitches and rates
       compare kit-notes [COUNT] hits of every drum, border and test of time, and COUNT random ones, 10^6 by default
       compare kit-scores [COUNT [SEED]]  COUNT score calls of the drum kit in lists, 10^6 by default, and a tenth as many texts
       compare kit-bench         nanoseconds a sample of each drum of each style, library and original, three runs
       compare tones [SCALE]     every q of the quarter tones; one in SCALE of those above 65,535
       compare voices [COUNT]    COUNT notes of each wave, 10^5 by default
       compare notes [COUNT]     COUNT note calls of every outcome, 10^6 by default
       compare scores [COUNT [SEED]]  COUNT score calls in lists, 10^6 by default; a SEED for other calls
       compare mapped-scores [COUNT [SEED]]  COUNT score calls with tempo maps in lists, 1.25 x 10^6 by default
       compare hops [COUNT [SEED]]  COUNT score calls at hops in lists, 1.5 x 10^6 by default
       compare stations [COUNT [SEED]]  COUNT score calls over stations in lists, 1.25 x 10^6 by default
       compare plans [COUNT [SEED]]  COUNT planning calls and a tenth as many of texts, 10^6 by default
       compare ceilings [SCALE]  scores that draw the most, at one rate in SCALE
       compare drawbars [COUNT]  COUNT note calls of organs with drawbars, 10^6 by default, and a tenth as many texts
       compare far-lane          curves about place 2^32 of a lane of 16 GiB, most of which are not in memory; minutes
       compare texts [COUNT]     COUNT text scores and damaged ones, 10^6 by default
       compare cue-sheets [COUNT [SEED]]  COUNT texts' cue sheets, 10^6 by default; a SEED for other texts
       compare boards [COUNT]    COUNT operations on a board in lists, 10^7 by default
       compare board-vectors     writes the replay files of crates/board_vectors
       compare wave-files [COUNT] COUNT WAVE files, most of them damaged, 10^6 by default
       compare cases FIRST COUNT damaged text scores with their answers, for robust/host.c
       compare wave-cases FIRST COUNT calls on WAVE files with their answers, for robust/wave_host.c
       compare call-cases FIRST COUNT  score calls and note calls with their answers, for python/calls.py
       compare answers           the original's answers to the calls on standard input, for .ci/seq_vectors
       compare listing           the listing that 01 asks of the text score on standard input
       compare example           the score of docs/scores.md that slows down, by the original
       compare stimulus          the WAVE file of examples/stimulus.c and stimulus.py on standard output, by the original
       compare groove-vectors    writes the replay files of crates/groove_vectors
       compare voice-vectors     writes the replay files of crates/voice_vectors
       compare score-vectors     writes the replay files of crates/score_vectors
       compare replay-vectors    writes the replay files of crates/replay
       compare wave-vectors      writes the replay files of crates/wave_vectors
       compare cue-vectors       writes the replay files of crates/cue_vectors
COMPARE_THREADS says how many threads compare; without it as many as the machine runs at once.";

fn main() -> ExitCode {
    let words: Vec<String> = env::args().skip(1).collect();
    let words: Vec<&str> = words.iter().map(String::as_str).collect();
    match words.as_slice() {
        ["all"] => status(all::run(1, 0)),
        ["all", scale] => scaled(scale, |scale| status(all::run(scale, 0))),
        ["all", scale, seed] => seeded(scale, seed),
        ["helpers"] => status(helpers::run(1)),
        ["helpers", scale] => scaled(scale, |scale| status(helpers::run(scale))),
        ["bench"] => done(bench::run()),
        ["mapped-bench"] => done(mapped_bench::run()),
        ["hop-bench"] => done(hop_bench::run()),
        ["short-bench"] => done(short_bench::run()),
        ["growth"] => done(growth::run()),
        ["helper-bench"] => done(helper_bench::run()),
        ["vectors"] => written(vectors::run()),
        ["kernels"] => status(kernels::run(kernels::COUNT)),
        ["kernels", "all"] => status(kernels::run_all(kernels::COUNT, 1)),
        ["kernels", count] => counted(count, kernels::run),
        ["block-kernels"] => status(block_kernels::run(1).printed()),
        ["block-kernels", scale] => {
            scaled(scale, |scale| status(block_kernels::run(scale).printed()))
        }
        ["kernel-bench"] => done(kernel_bench::run()),
        ["kits"] => status(kits::run(1)),
        ["kits", scale] => scaled(scale, |scale| status(kits::run(scale))),
        ["kit-notes"] => status(kit_notes::run(kit_notes::COUNT)),
        ["kit-notes", count] => counted(count, kit_notes::run),
        ["kit-scores"] => status(kit_scores::run(kit_scores::COUNT)),
        ["kit-scores", count] => counted(count, kit_scores::run),
        ["kit-scores", count, seed] => counted_from(count, seed, kit_scores::run),
        ["kit-bench"] => done(kit_bench::run()),
        ["tones"] => status(tones::run(1)),
        ["tones", scale] => scaled(scale, |scale| status(tones::run(scale))),
        ["voices"] => status(voices::run(voices::COUNT)),
        ["voices", count] => counted(count, voices::run),
        ["notes"] => status(note_calls::run(note_calls::COUNT)),
        ["notes", count] => counted(count, note_calls::run),
        ["scores"] => status(score_calls::run(score_calls::COUNT)),
        ["scores", count] => counted(count, score_calls::run),
        ["scores", count, seed] => counted_from(count, seed, score_calls::run),
        ["mapped-scores"] => status(mapped_calls::run(mapped_calls::COUNT)),
        ["mapped-scores", count] => counted(count, mapped_calls::run),
        ["mapped-scores", count, seed] => counted_from(count, seed, mapped_calls::run),
        ["hops"] => status(hop_calls::run(hop_calls::COUNT)),
        ["hops", count] => counted(count, hop_calls::run),
        ["hops", count, seed] => counted_from(count, seed, hop_calls::run),
        ["stations"] => status(station_calls::run(station_calls::COUNT)),
        ["stations", count] => counted(count, station_calls::run),
        ["stations", count, seed] => counted_from(count, seed, station_calls::run),
        ["plans"] => status(plan_calls::run(plan_calls::COUNT)),
        ["plans", count] => counted(count, plan_calls::run),
        ["plans", count, seed] => counted_from(count, seed, plan_calls::run),
        ["ceilings"] => status(ceilings::run(1)),
        ["ceilings", scale] => scaled(scale, |scale| status(ceilings::run(scale))),
        ["drawbars"] => status(drawbars::run(drawbars::COUNT)),
        ["drawbars", count] => counted(count, drawbars::run),
        ["far-lane"] => status(far_lane::run()),
        ["texts"] => status(texts::run(texts::COUNT)),
        ["texts", count] => counted(count, texts::run),
        ["cue-sheets"] => status(cue_sheets::run(cue_sheets::COUNT)),
        ["cue-sheets", count] => counted(count, cue_sheets::run),
        ["cue-sheets", count, seed] => counted_from(count, seed, cue_sheets::run),
        ["boards"] => status(boards::run(boards::COUNT)),
        ["boards", count] => counted(count, boards::run),
        ["board-vectors"] => written(board_vectors::run()),
        ["wave-files"] => status(wave_files::run(wave_files::COUNT)),
        ["wave-files", count] => counted(count, wave_files::run),
        ["cases", first, count] => streamed(first, count, text_stream::run),
        ["wave-cases", first, count] => streamed(first, count, wave_stream::run),
        ["call-cases", first, count] => streamed(first, count, call_stream::run),
        ["listing"] => written(listing()),
        ["example"] => done(example::run()),
        ["stimulus"] => written(stimulus::run()),
        ["libm"] => done(libm::run(1)),
        ["libm", scale] => scaled(scale, |scale| done(libm::run(scale))),
        ["kernel-vectors"] => written(kernel_vectors::run()),
        ["voice-vectors"] => written(voice_vectors::run()),
        ["score-vectors"] => written(score_vectors::run()),
        ["replay-vectors"] => written(replay_vectors::run()),
        ["wave-vectors"] => written(wave_vectors::run()),
        ["cue-vectors"] => written(cue_vectors::run()),
        ["groove-vectors"] => written(groove_vectors::run()),
        ["answers"] => written(answers::run()),
        _ => usage(),
    }
}

/// A run of `count` cases.
fn counted(count: &str, run: impl Fn(u64) -> Count) -> ExitCode {
    match count.parse() {
        Ok(count) => status(run(count)),
        Err(_) => usage(),
    }
}

/// The same with other random cases for a `seed` that is not 0.
fn counted_from(count: &str, seed: &str, run: impl Fn(u64) -> Count) -> ExitCode {
    match seed.parse() {
        Ok(seed) => {
            random::set_run(seed);
            counted(count, run)
        }
        Err(_) => usage(),
    }
}

/// A run of one case in `scale`.
fn scaled(scale: &str, run: impl Fn(u64) -> ExitCode) -> ExitCode {
    match scale.parse() {
        Ok(scale) if scale > 0 => run(scale),
        _ => usage(),
    }
}

fn seeded(scale: &str, seed: &str) -> ExitCode {
    match (scale.parse(), seed.parse()) {
        (Ok(scale), Ok(seed)) if scale > 0 => status(all::run(scale, seed)),
        _ => usage(),
    }
}

fn streamed(first: &str, count: &str, run: impl Fn(u64, u64) -> io::Result<()>) -> ExitCode {
    match (first.parse(), count.parse()) {
        (Ok(first), Ok(count)) => written(run(first, count)),
        _ => usage(),
    }
}

/// By the reference alone; the library has no part in it.
fn listing() -> io::Result<()> {
    let mut text = Vec::new();
    io::stdin().read_to_end(&mut text)?;
    io::stdout().write_all(&text_reference::listing(&text).bytes)
}

fn done(_: ()) -> ExitCode {
    ExitCode::SUCCESS
}

fn status(count: Count) -> ExitCode {
    if count.differ == 0 {
        ExitCode::SUCCESS
    } else {
        ExitCode::FAILURE
    }
}

fn written(done: io::Result<()>) -> ExitCode {
    match done {
        Ok(()) => ExitCode::SUCCESS,
        Err(error) => {
            eprintln!("compare: {error}");
            ExitCode::FAILURE
        }
    }
}

fn usage() -> ExitCode {
    eprintln!("{USAGE}");
    ExitCode::from(2)
}
