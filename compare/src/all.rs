//! Every comparison in one run, with one table at the end.

use crate::engine::Count;
use crate::{
    boards, ceilings, cue_sheets, drawbars, helpers, hop_calls, kernels, kit_notes, kit_scores,
    kits, mapped_calls, note_calls, plan_calls, progress, random, score_calls, station_calls,
    texts, tones, voices, wave_files,
};
use std::process::{Command, Stdio};

const DAMAGED: &str = concat!(env!("CARGO_MANIFEST_DIR"), "/robust/run");
/// How many damaged texts, and files, go through the host in C; `robust/run` alone tries ten times as many.
const TEXTS: u64 = 1_000_000;

/// One row of the table: what is compared, with what, and the run of one case in a number.
type Part = (&'static str, &'static str, fn(u64) -> Count);

const PARTS: [Part; 21] = [
    ("float helpers", "Rust's operations", helpers::run),
    ("kernels", "det.rs and the request's words", |scale| {
        kernels::run_all(kernels::COUNT.div_ceil(scale), scale)
    }),
    ("numbers of the drum kit", "dsp.rs and kit.rs", kits::run),
    ("quarter tones", "the rule in whole numbers", tones::run),
    ("notes of each wave", "seq_note_signal", |scale| {
        voices::run(voices::COUNT.div_ceil(scale))
    }),
    ("note calls", "01's note call", |scale| {
        note_calls::run(note_calls::COUNT.div_ceil(scale))
    }),
    ("score calls in lists", "01's tally", |scale| {
        score_calls::run(score_calls::COUNT.div_ceil(scale))
    }),
    (
        "mapped score calls in lists",
        "render_seq_mapped",
        |scale| mapped_calls::run(mapped_calls::COUNT.div_ceil(scale)),
    ),
    (
        "score calls at hops in lists",
        "01's tally, curves widened",
        |scale| hop_calls::run(hop_calls::COUNT.div_ceil(scale)),
    ),
    (
        "score calls over stations in lists",
        "01's tally of each station",
        |scale| station_calls::run(station_calls::COUNT.div_ceil(scale)),
    ),
    ("planning calls", "the notes sorted and added", |scale| {
        plan_calls::run(plan_calls::COUNT.div_ceil(scale))
    }),
    (
        "scores at the ceiling",
        "the formula of the request",
        ceilings::run,
    ),
    ("text scores", "01's text call", |scale| {
        texts::run(texts::COUNT.div_ceil(scale))
    }),
    ("cue sheets of text scores", "02's Card 7", |scale| {
        cue_sheets::run(cue_sheets::COUNT.div_ceil(scale))
    }),
    (
        "organs with drawbars",
        "organ_note, its pairs replaced",
        |scale| drawbars::run(drawbars::COUNT.div_ceil(scale)),
    ),
    ("hits of the drum kit", "kit_drum", |scale| {
        kit_notes::run(kit_notes::COUNT.div_ceil(scale))
    }),
    (
        "score calls of the drum kit in lists",
        "01's tally of each station",
        |scale| kit_scores::run(kit_scores::COUNT.div_ceil(scale)),
    ),
    ("damaged texts from C", "01's text call", |scale| {
        damaged(&[], TEXTS.div_ceil(scale))
    }),
    ("WAVE files", "02's Card 12", |scale| {
        wave_files::run(wave_files::COUNT.div_ceil(scale))
    }),
    ("damaged WAVE files from C", "02's Card 12", |scale| {
        damaged(&["waves"], TEXTS.div_ceil(scale))
    }),
    ("operations on a board", "the request's words", |scale| {
        boards::run(boards::COUNT.div_ceil(scale))
    }),
];

/// robust/run, whose last line is 'N differ in all'. A run that breaks off counts as all differing.
fn damaged(of: &[&str], count: u64) -> Count {
    let run = Command::new(DAMAGED)
        .args(of)
        .arg(count.to_string())
        .stderr(Stdio::inherit())
        .output();
    let said = run.map_or(String::new(), |run| {
        String::from_utf8_lossy(&run.stdout).into_owned()
    });
    print!("{said}");
    let last = said.lines().last().unwrap_or("");
    let differ = last.strip_suffix(" differ in all");
    Count {
        cases: count,
        differ: differ.and_then(|n| n.parse().ok()).unwrap_or(count),
    }
}

/// Compares one case in `scale`; a `seed` that is not 0 makes other random cases.
pub fn run(scale: u64, seed: u64) -> Count {
    random::set_run(seed);
    let mut part = 0;
    let counts = PARTS.map(|(name, with, run)| {
        part += 1;
        progress::set_part(format!("part {part} of {}, {name}, ", PARTS.len()));
        println!("-- {name} against {with}");
        run(scale)
    });
    println!("-- one case in {scale}, seed {seed}");
    println!("| compared | with | cases | differ |");
    println!("|---|---|---|---|");
    for ((name, with, _), Count { cases, differ }) in PARTS.iter().zip(counts) {
        println!("| {name} | {with} | {cases} | {differ} |");
    }
    counts.into_iter().sum::<Count>().printed()
}
